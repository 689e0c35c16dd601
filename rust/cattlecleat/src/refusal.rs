//! Why nothing was done: document 01's numbers from 2 on and document 02's, with their words.
use std::error::Error;
use std::fmt;

/// Why nothing was done. A refusal changes nothing: neither the stack nor a buffer, slot, trace or tape.
///
/// D is the depth limit in frames, M the height limit in cells, L the number of cells lent.
///
/// ```
/// use cattlecleat::{Refusal, align_relative_to};
///
/// let refusal = align_relative_to(999, 1000).unwrap_err();
/// assert_eq!(refusal, Refusal::BadAddress);
/// assert_eq!(refusal.number(), 15);
/// assert_eq!(refusal.to_string(), "refusal 15: ip below base, or the aligned address above the largest u64");
/// ```
#[derive(Clone, Copy, Debug, PartialEq, Eq, PartialOrd, Ord, Hash)]
pub enum Refusal {
    /// 2: push with frame count = D; or a needed length above M.
    Overflow = 2,
    /// 3: needed length at most M but above L.
    OutOfCells = 3,
    /// 4: no frame, for pop, replace, return-host, sync, restore, set; or push or host gives a caller ip without a frame.
    NoFrame = 4,
    /// 5: push or replace without params ≤ locals ≤ slots; push with slots 0 and head not 0.
    BadCounts = 5,
    /// 6: push without caller ip over a frame.
    NoCallerIp = 6,
    /// 7: parameters (or a set cell) lie beyond `len`.
    BeyondLen = 7,
    /// 8: restore without current instance.
    NoInstance = 8,
    /// 9: lent lengths differ from the state's, a limit is broken, 4·D exceeds the frame words, count > D, `len` above L or M, or a frame
    /// read has start > `len`, a flag above 1, or flag 0 with a nonzero instance. It comes only from a state or words that did not come
    /// from here, and from a buffer whose length changes.
    Broken = 9,
    /// 10: trace record, read or to be written, that breaks the rules of its kind, or fewer than 40 bytes for it.
    BadRecord = 10,
    /// 11: host frame with end above `len`, end below start, or end minus start not max(params, results).
    BadHostFrame = 11,
    /// 12: done slot already filled.
    AlreadyFilled = 12,
    /// 13: nothing to take.
    NothingToTake = 13,
    /// 14: opening beyond the limits, or too few frame words.
    BadOpening = 14,
    /// 15: ip below base, or the aligned address above the largest u64.
    BadAddress = 15,
    /// 22: a nonempty block after an end without a stop.
    Ended = 22,
}

impl Refusal {
    /// Document 01's number, 2 to 15, or document 02's, 22.
    pub const fn number(self) -> u64 {
        self as u64
    }

    /// The refusal of a number; none for 0 and 1, which are no refusals, and for numbers that no answer has.
    ///
    /// ```
    /// # use cattlecleat::Refusal;
    /// assert_eq!(Refusal::from_number(7), Some(Refusal::BeyondLen));
    /// assert_eq!(Refusal::from_number(1), None);
    /// ```
    pub const fn from_number(number: u64) -> Option<Self> {
        Some(match number {
            2 => Self::Overflow,
            3 => Self::OutOfCells,
            4 => Self::NoFrame,
            5 => Self::BadCounts,
            6 => Self::NoCallerIp,
            7 => Self::BeyondLen,
            8 => Self::NoInstance,
            9 => Self::Broken,
            10 => Self::BadRecord,
            11 => Self::BadHostFrame,
            12 => Self::AlreadyFilled,
            13 => Self::NothingToTake,
            14 => Self::BadOpening,
            15 => Self::BadAddress,
            22 => Self::Ended,
            _ => return None,
        })
    }

    /// What the archive's answer number says: done, be it with or without a frame left, or refused.
    ///
    /// # Panics
    ///
    /// On a number that no answer has: the archive is proved to give none, so that it is not the one that belongs here.
    #[inline]
    pub(crate) fn check(number: u64) -> Result<(), Self> {
        if number <= 1 {
            return Ok(());
        }
        match Self::from_number(number) {
            Some(refusal) => Err(refusal),
            None => panic!("the archive answered {number}, which is no answer number: it does not belong to this crate"),
        }
    }

    /// When it is given, in the documents' words.
    const fn words(self) -> &'static str {
        match self {
            Self::Overflow => "push with frame count = D; or a needed length above M",
            Self::OutOfCells => "needed length at most M but above L",
            Self::NoFrame => "no frame, for pop, replace, return-host, sync, restore, set; or push/host gives a caller ip without a frame",
            Self::BadCounts => "push/replace without params ≤ locals ≤ slots; push with slots 0 and head not 0",
            Self::NoCallerIp => "push without caller ip over a frame",
            Self::BeyondLen => "parameters (or a set cell) lie beyond `len`",
            Self::NoInstance => "restore without current instance",
            Self::Broken => {
                "lent lengths differ from the state's, a limit is broken, 4·D exceeds the frame words, count > D, `len` above L or M, \
                 or a frame read has start > `len`, a flag above 1, or flag 0 with a nonzero instance"
            }
            Self::BadRecord => "trace record, read or to be written, that breaks the rules, or fewer than 40 bytes for it",
            Self::BadHostFrame => "host frame with end above `len`, end below start, or end minus start not max(params, results)",
            Self::AlreadyFilled => "done slot already filled",
            Self::NothingToTake => "nothing to take",
            Self::BadOpening => "opening beyond the limits, or too few frame words",
            Self::BadAddress => "ip below base, or the aligned address above the largest u64",
            Self::Ended => "a nonempty block after an end without a stop",
        }
    }
}

impl fmt::Display for Refusal {
    fn fmt(&self, f: &mut fmt::Formatter<'_>) -> fmt::Result {
        write!(f, "refusal {}: {}", self.number(), self.words())
    }
}

impl Error for Refusal {}
