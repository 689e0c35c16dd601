//! Options of a subcommand: `--name NUMBER`, each at most once.

use std::collections::HashMap;

#[derive(Debug)]
pub struct Options {
    given: HashMap<String, u64>,
}

impl Options {
    /// Reads the options; an error names the first that is not one of the allowed.
    pub fn read(args: &[String], allowed: &[&str]) -> Result<Self, String> {
        let mut given = HashMap::new();
        for pair in args.chunks(2) {
            let name = pair[0]
                .strip_prefix("--")
                .filter(|name| allowed.contains(name))
                .ok_or(format!("no such option: {}", pair[0]))?;
            let number = pair
                .get(1)
                .and_then(|number| number.parse().ok())
                .ok_or(format!("--{name} needs a number"))?;
            if given.insert(name.to_string(), number).is_some() {
                return Err(format!("--{name} is given twice"));
            }
        }
        Ok(Self { given })
    }

    pub fn number(&self, name: &str, default: u64) -> u64 {
        self.given.get(name).copied().unwrap_or(default)
    }
}

#[cfg(test)]
mod tests {
    use super::Options;

    fn read(line: &str) -> Result<Options, String> {
        let args: Vec<String> = line.split_whitespace().map(String::from).collect();
        Options::read(&args, &["seed", "count"])
    }

    #[test]
    fn numbers_by_name() {
        let options = read("--count 7").expect("good");
        assert_eq!((options.number("count", 1), options.number("seed", 5)), (7, 5));
        for wrong in ["count 7", "--count", "--count x", "--length 3", "--count 1 --count 2"] {
            assert!(read(wrong).is_err(), "{wrong}");
        }
    }
}
