//! Counts what is compared; the first that differs is an error.

use std::fmt::Debug;

/// How much was compared, or the first difference.
pub type Compared = Result<u64, String>;

#[derive(Default)]
pub struct Count {
    pub compared: u64,
}

impl Count {
    /// What was found must be what is wanted.
    #[inline]
    pub fn same<T: PartialEq + Debug>(&mut self, found: T, wanted: T, what: impl FnOnce() -> String) -> Result<(), String> {
        self.compared += 1;
        if found == wanted {
            return Ok(());
        }
        Err(format!("{}: {found:?}, not {wanted:?}", what()))
    }
}

#[cfg(test)]
mod tests {
    use super::Count;

    #[test]
    fn a_difference_is_an_error() {
        let mut count = Count::default();
        assert_eq!(count.same(1, 1, || "one".to_string()), Ok(()));
        assert_eq!(count.same(1, 2, || "two".to_string()), Err("two: 1, not 2".to_string()));
        assert_eq!(count.compared, 2);
    }
}
