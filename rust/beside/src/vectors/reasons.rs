//! Why some mutations cannot be shown by any entry. One that is named here and shown all the same is an error too.

use super::ledger::{Change, Mutation};
use super::line::{HIGHER, LOWER};

/// The buffer has 64 cells, so L's limit is out of reach; the run at the largest sizes has both sides of it. A state with more cells than
/// 1,048,576 has more than are lent, and is refused for that.
const CELLS: &str = "64 cells are lent at most: 'fewer cells lent' holds with it, and at an opening neither does";

/// Two causes that never hold together, so that their order does not matter.
const A_FRAME: &str = "never together: count above D is above 0, and a frame is read only where there is one";
const ONE_COUNT: &str = "never together: count is above D or equal to it";
const ONE_IP: &str = "never together: the ip is given or it is not";
const NO_SLOTS: &str = "never together: with slots 0 no length is needed";

/// A size is 1 to 65,535 where the order is looked at. With end = start, and with end = start - 1 whose difference wraps to the largest
/// number, the size is not that.
const ORDER: &str = "'size not the larger count' holds on both sides of this bound";

/// Where 7 is not given, start + params is at most start + head + params, and so at most `len`, which is at most M and L by 9.
const PARAMS: &str = "after 7 the parameters lie below len, so only results need more";

/// Why this mutation changes no answer; nothing where it should change one.
pub fn reason((list, change): &Mutation) -> Option<&'static str> {
    match *change {
        Change::Dropped(cause) | Change::Slipped(cause, _) | Change::Exchanged(cause, _) if cause == "L above its limit" => Some(CELLS),
        Change::Slipped("end below start", LOWER | HIGHER) => Some(ORDER),
        Change::Slipped("needed above M" | "needed above L", "by results alone") if *list == "return-host" => Some(PARAMS),
        Change::Exchanged(earlier, later) => never_together(earlier, later),
        _ => None,
    }
}

fn never_together(earlier: &str, later: &str) -> Option<&'static str> {
    let reads_frame = earlier.starts_with("top ") || earlier.starts_with("next ");
    match (earlier, later) {
        (_, "no frame" | "caller ip without a frame") if reads_frame || earlier == "count above D" => Some(A_FRAME),
        ("count above D", "count equals D") => Some(ONE_COUNT),
        ("caller ip without a frame", "no caller ip over a frame") => Some(ONE_IP),
        ("slots 0 and head not 0", "needed above M" | "needed above L") => Some(NO_SLOTS),
        _ => None,
    }
}
