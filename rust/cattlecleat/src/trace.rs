//! Traces: records of 40 bytes, read and written one by one, walked, and replayed with fuel.
use crate::raw::{self, Run};
use crate::{Refusal, Request, Stack};

/// How many bytes a record takes.
pub const RECORD_BYTES: usize = 40;

/// The request of the record that begins at a place. [`Refusal::BadRecord`] where it breaks the rules of its kind or fewer than 40 bytes
/// are left.
pub fn read_record(bytes: &[u8], at: usize) -> Result<Request, Refusal> {
    let read = raw::read_record(bytes, at);
    Refusal::check(read.number)?;
    Request::try_from(read.request)
}

/// Writes a request's record at a place, which always keeps the rules of its kind. [`Refusal::BadRecord`] where fewer than 40 bytes are
/// left; then no byte changes.
///
/// ```
/// use cattlecleat::{Refusal, Request, read_record, write_record};
///
/// let mut bytes = [0; 80];
/// write_record(&mut bytes, 40, Request::Pop(2))?;
/// assert_eq!(read_record(&bytes, 40), Ok(Request::Pop(2)));
/// assert_eq!(read_record(&bytes, 0), Err(Refusal::BadRecord));    // no kind has the number 0
/// assert_eq!(write_record(&mut bytes, 41, Request::Reset), Err(Refusal::BadRecord));
/// # Ok::<(), Refusal>(())
/// ```
pub fn write_record(bytes: &mut [u8], at: usize, request: Request) -> Result<(), Refusal> {
    Refusal::check(raw::write_record(bytes, at, request.into()))
}

impl Request {
    /// The record of this request.
    pub fn to_record(self) -> [u8; RECORD_BYTES] {
        let mut bytes = [0; RECORD_BYTES];
        write_record(&mut bytes, 0, self).expect("every request has a record, and there is room for it");
        bytes
    }
}

/// Walks a lent trace and hands out one request after another: [`Refusal::BadRecord`] for a record that breaks the rules, and the walk goes
/// on 40 bytes further. A tail of fewer than 40 bytes is such a record.
///
/// ```
/// use cattlecleat::{Refusal, Request, Trace};
///
/// let mut bytes = [Request::Sync(5), Request::Reset].map(Request::to_record).concat();
/// bytes.push(0);
/// let read: Vec<_> = Trace::new(&bytes).collect();
/// assert_eq!(read, [Ok(Request::Sync(5)), Ok(Request::Reset), Err(Refusal::BadRecord)]);
/// ```
#[derive(Clone, Debug)]
pub struct Trace<'a> {
    bytes: &'a [u8],
    at: usize,
}

impl<'a> Trace<'a> {
    /// A walk from the beginning of the bytes.
    pub fn new(bytes: &'a [u8]) -> Self {
        Self { bytes, at: 0 }
    }

    /// Where the next record begins; the length of the trace at its end.
    pub fn position(&self) -> usize {
        self.at
    }
}

impl Iterator for Trace<'_> {
    type Item = Result<Request, Refusal>;

    fn next(&mut self) -> Option<Self::Item> {
        let left = self.bytes.len() - self.at;
        if left == 0 {
            return None;
        }
        let item = read_record(self.bytes, self.at);
        self.at += left.min(RECORD_BYTES);
        Some(item)
    }

    fn size_hint(&self) -> (usize, Option<usize>) {
        let records = (self.bytes.len() - self.at).div_ceil(RECORD_BYTES);
        (records, Some(records))
    }
}

impl ExactSizeIterator for Trace<'_> {}

impl std::iter::FusedIterator for Trace<'_> {}

/// What came of a replay.
#[derive(Clone, Copy, Debug, PartialEq, Eq, Hash)]
pub struct Replayed {
    /// How many records were run; the number of the record that it stopped before, counted from 0.
    pub records: u64,
    /// The sum of their costs, never above the fuel given.
    pub spent: u64,
    /// The cost of the record that it stopped before, where the fuel left did not cover it.
    pub stopped: Option<u64>,
}

impl Replayed {
    /// Of a run that was begun at record 0 with nothing spent.
    pub(crate) fn of(run: &Run) -> Self {
        Self {
            records: run.number,
            spent: run.spent,
            stopped: (run.stop_flag != 0).then_some(run.cost),
        }
    }
}

impl<W: AsMut<[u64]>, C: AsMut<[u64]>> Stack<W, C> {
    /// Replays a trace, up to a record whose cost exceeds the fuel left. A record costs 1, plus the cells zeroed or copied if it is
    /// accepted; refused records, bad ones too, cost 1, and the replay goes on.
    ///
    /// ```
    /// use cattlecleat::{FRAME_WORDS, Limits, PushArgs, Replayed, Request, Stack};
    ///
    /// let first = PushArgs { callee: 100, locals: 2, slots: 4, instance: Some(1), ..PushArgs::default() };
    /// let trace = [Request::Push(first), Request::Pop(1)].map(Request::to_record).concat();
    /// let mut stack = Stack::open(Limits { depth: 3, bytes: 80 }, vec![0; 3 * FRAME_WORDS], vec![0; 10])?;
    /// assert_eq!(stack.replay(1000, &trace), Replayed { records: 2, spent: 4, stopped: None });
    /// assert_eq!(stack.replay(2, &trace), Replayed { records: 0, spent: 0, stopped: Some(3) });
    /// # Ok::<(), cattlecleat::Refusal>(())
    /// ```
    pub fn replay(&mut self, fuel: u64, trace: &[u8]) -> Replayed {
        let begun = Run {
            state: self.state,
            fuel,
            ..Run::default()
        };
        let run = raw::replay(begun, self.words.as_mut(), self.cells.as_mut(), trace);
        self.state = run.state;
        Replayed::of(&run)
    }
}
