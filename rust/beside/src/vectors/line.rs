//! A line of a refusal list: a cause, its number, and whether it holds; and whether it would if it were written a little wrong.

/// How a line can be written wrong.
pub type Slip = &'static str;

pub const LOWER: Slip = "with its bound one lower";
pub const HIGHER: Slip = "with its bound one higher";
pub const UNSPARED: Slip = "without its exemption";
pub const SPARED: Slip = "exempted too where nothing is needed";

/// Found in one world for one request.
#[derive(Clone, Debug, PartialEq, Eq)]
pub struct Line {
    pub cause: &'static str,
    pub number: u64,
    pub holds: bool,
    /// Whether it would hold with such a slip.
    pub slips: Vec<(Slip, bool)>,
}

impl Line {
    pub fn when(cause: &'static str, number: u64, holds: bool) -> Self {
        Self {
            cause,
            number,
            holds,
            slips: Vec::new(),
        }
    }

    /// It holds where the found number is above the bound.
    pub fn above(cause: &'static str, number: u64, found: u128, bound: u128) -> Self {
        let line = Self::when(cause, number, found > bound);
        line.slip(LOWER, found >= bound).slip(HIGHER, found > bound + 1)
    }

    /// It holds where both numbers are the same.
    pub fn equal(cause: &'static str, number: u64, found: u64, bound: u64) -> Self {
        let line = Self::when(cause, number, found == bound);
        line.slip(LOWER, found.wrapping_add(1) == bound)
            .slip(HIGHER, found == bound.wrapping_add(1))
    }

    /// One more slip, and whether the line would hold with it.
    pub fn slip(mut self, slip: Slip, holds: bool) -> Self {
        self.slips.push((slip, holds));
        self
    }

    /// Where the condition is false there is nothing to look at.
    pub fn and(mut self, condition: bool) -> Self {
        self.holds &= condition;
        self.slips.iter_mut().for_each(|(_, holds)| *holds &= condition);
        self
    }

    /// An exemption from the line.
    pub fn unless(self, spared: bool) -> Self {
        let always = self.holds;
        self.and(!spared).slip(UNSPARED, always)
    }

    /// No exemption from it, though others of its list have one.
    pub fn also_if(self, spared: bool) -> Self {
        let holds = self.holds && !spared;
        self.slip(SPARED, holds)
    }
}

/// The number of the first line that holds; 0 where none does.
pub fn first(lines: &[Line]) -> u64 {
    lines.iter().find(|line| line.holds).map_or(0, |line| line.number)
}
