//! The lines of the benchmark: one for each party on a trace, with a ratio at its end.

use super::clock::median;
use super::ways::{BY_HAND, Role};

/// What a party takes a record.
pub struct Measured {
    pub party: &'static str,
    pub role: Role,
    /// By round.
    pub nanoseconds: Vec<f64>,
    pub instructions: Option<u64>,
}

/// The first party is what all are measured by. Where one has the shapes of C by hand, and there is none, its line says so.
pub fn lines(trace: &str, way: &str, all: &[Measured]) -> Vec<String> {
    let begin = |party: &str| format!("{trace:<15}  {way:<18}  {party:<22}");
    let floor = all.iter().find(|measured| measured.role == Role::Floor);
    let line = |measured: &Measured| begin(measured.party) + &measured.figures(&all[0], floor);
    let like_floor = all.iter().any(|measured| measured.role == Role::LikeFloor);
    let missing = like_floor && floor.is_none();
    let missing = missing.then(|| format!("{}  no C compiler", begin(BY_HAND)));
    all.iter().map(line).chain(missing).collect()
}

impl Measured {
    fn figures(&self, first: &Self, floor: Option<&Self>) -> String {
        let instructions = self.instructions.map_or(String::new(), |count| format!("{count:7} instructions"));
        let of_floor = floor.filter(|_| self.role == Role::LikeFloor);
        let of_floor = of_floor.map_or(String::new(), |floor| format!("of C {:.2}", self.over(floor)));
        format!(
            "  {:7.2} ns{instructions}  {of_floor:9}  ratio {:.2}",
            median(self.nanoseconds.iter().copied()),
            self.over(first)
        )
    }

    /// Of each round by itself, since what slows the machine down for a while slows both down.
    fn over(&self, other: &Self) -> f64 {
        let rounds = self.nanoseconds.iter().zip(&other.nanoseconds);
        median(rounds.map(|(ours, theirs)| ours / theirs))
    }
}

#[cfg(test)]
mod tests {
    use super::{Measured, Role, lines};

    fn measured(party: &'static str, role: Role, nanoseconds: [f64; 3], instructions: Option<u64>) -> Measured {
        Measured {
            party,
            role,
            nanoseconds: nanoseconds.to_vec(),
            instructions,
        }
    }

    /// The second round was slower for all.
    #[test]
    fn ratios_to_the_rust_and_to_c() {
        let all = [
            measured("the Rust", Role::Plain, [10.0, 20.0, 10.0], Some(76)),
            measured("ours", Role::LikeFloor, [12.0, 24.0, 13.0], Some(150)),
            measured("C", Role::Floor, [8.0, 16.0, 8.0], Some(99)),
        ];
        assert_eq!(
            lines("calls", "in a loop", &all),
            [
                "calls            in a loop           the Rust                  10.00 ns     76 instructions             ratio 1.00",
                "calls            in a loop           ours                      13.00 ns    150 instructions  of C 1.50  ratio 1.20",
                "calls            in a loop           C                          8.00 ns     99 instructions             ratio 0.80",
            ]
        );
    }

    #[test]
    fn without_c_and_counts() {
        let all = [
            measured("the Rust", Role::Plain, [10.0; 3], None),
            measured("ours", Role::LikeFloor, [12.0; 3], None),
        ];
        assert_eq!(
            lines("calls", "in a loop", &all)[1..],
            [
                "calls            in a loop           ours                      12.00 ns             ratio 1.20",
                "calls            in a loop           C by hand, every check  no C compiler",
            ]
        );
    }

    #[test]
    fn ratios_to_all_at_once() {
        let all = [
            measured("at once", Role::Plain, [10.0, 20.0, 10.0], None),
            measured("blocks", Role::Plain, [11.0, 21.0, 10.0], None),
        ];
        assert_eq!(
            lines("calls", "in blocks", &all),
            [
                "calls            in blocks           at once                   10.00 ns             ratio 1.00",
                "calls            in blocks           blocks                    11.00 ns             ratio 1.05",
            ]
        );
    }
}
