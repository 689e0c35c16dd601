//! Document 01's requests, answers and state in plain numbers, as all parties are compared by them. Floats are their bits.

use std::fmt;

/// The names of the nine kinds, 1 first.
pub const KINDS: [&str; 9] = ["push", "pop", "replace", "host", "return-host", "sync", "restore", "reset", "set"];

/// One of the nine requests by its kind; what the kind does not use is 0 or none.
#[derive(Clone, Copy, Debug, Default, PartialEq, Eq)]
pub struct Request {
    pub kind: u64,
    pub head: u16,
    pub params: u16,
    pub locals: u16,
    pub slots: u16,
    pub results: u16,
    /// The caller ip; the ip of a sync.
    pub caller: Option<u64>,
    /// The callee ip; the cell of a set.
    pub callee: u64,
    pub instance: Option<u64>,
}

/// A request as the C face takes it: all of its numbers, with any flags.
#[derive(Clone, Copy, Debug, Default, PartialEq, Eq)]
pub struct Straight {
    pub kind: u64,
    pub head: u16,
    pub params: u16,
    pub locals: u16,
    pub slots: u16,
    pub results: u16,
    pub caller_flag: u64,
    pub caller: u64,
    pub callee: u64,
    pub instance_flag: u64,
    pub instance: u64,
}

impl Straight {
    /// With a flag of 1 for what is given.
    pub fn of(q: &Request) -> Self {
        Self {
            kind: q.kind,
            head: q.head,
            params: q.params,
            locals: q.locals,
            slots: q.slots,
            results: q.results,
            caller_flag: q.caller.is_some().into(),
            caller: q.caller.unwrap_or(0),
            callee: q.callee,
            instance_flag: q.instance.is_some().into(),
            instance: q.instance.unwrap_or(0),
        }
    }

    /// As its record is read and written: the flags are the record's, and a sync's ip has none.
    pub fn as_read(q: &Request) -> Self {
        let straight = Self::of(q);
        match q.kind {
            6 => Self {
                caller_flag: 0,
                ..straight
            },
            _ => straight,
        }
    }

    /// What it asks for. A sync's ip and the instance of a pop or return-host are given whatever their flags.
    pub fn request(&self) -> Request {
        let caller = self.kind == 6 || self.caller_flag != 0;
        let instance = matches!(self.kind, 2 | 5) || self.instance_flag != 0;
        Request {
            kind: self.kind,
            head: self.head,
            params: self.params,
            locals: self.locals,
            slots: self.slots,
            results: self.results,
            caller: caller.then_some(self.caller),
            callee: self.callee,
            instance: instance.then_some(self.instance),
        }
    }
}

/// A flag and the number beside it: a flag of 0 says none whatever the number, any other that it is given.
pub type Flagged = [u64; 2];

/// What a flag and the number beside it say.
pub fn said([flag, number]: Flagged) -> Option<u64> {
    (flag != 0).then_some(number)
}

/// As it is told anew: a flag of 0 or 1, and 0 beside 0.
pub fn anew(given: Option<u64>) -> Flagged {
    [u64::from(given.is_some()), given.unwrap_or(0)]
}

/// The three registers.
#[derive(Clone, Copy, Debug, Default, PartialEq, Eq, Hash)]
pub struct Regs {
    pub ireg: u64,
    pub freg32: u32,
    pub freg64: u64,
}

/// A host frame.
#[derive(Clone, Copy, Debug, Default, PartialEq, Eq)]
pub struct HostFrame {
    pub start: u64,
    pub end: u64,
    pub params: u16,
    pub results: u16,
}

/// An answer: the number, and everything that some request hands back.
#[derive(Clone, Copy, Debug, Default, PartialEq, Eq)]
pub struct Answer {
    pub number: u64,
    pub offset: u64,
    pub ip: u64,
    pub instance: u64,
    pub host: HostFrame,
    pub regs: Regs,
    /// How many cells of a host's part hold parameters, and how many there are for results.
    pub part: (u64, u64),
}

impl Answer {
    /// A number and nothing beside it.
    pub fn of(number: u64) -> Self {
        Self { number, ..Self::default() }
    }

    /// Whether it is 0 or 1.
    pub fn accepted(&self) -> bool {
        self.number < 2
    }
}

impl fmt::Display for Answer {
    /// The number, and what is not 0 beside it.
    fn fmt(&self, f: &mut fmt::Formatter<'_>) -> fmt::Result {
        write!(f, "{}", self.number)?;
        for (name, number) in [("offset", self.offset), ("ip", self.ip), ("instance", self.instance)] {
            write_unless(f, number == 0, format_args!("{name} {number}"))?;
        }
        write_unless(f, self.host == HostFrame::default(), format_args!("{:?}", self.host))?;
        write_unless(f, self.regs == Regs::default(), format_args!("{:?}", self.regs))?;
        write_unless(f, self.part == (0, 0), format_args!("part {:?}", self.part))
    }
}

fn write_unless(f: &mut fmt::Formatter<'_>, left_out: bool, text: fmt::Arguments<'_>) -> fmt::Result {
    if left_out { Ok(()) } else { write!(f, ", {text}") }
}

/// A replay in its course.
#[derive(Clone, Copy, Debug, Default, PartialEq, Eq)]
pub struct Replay {
    /// The number of the next record.
    pub number: u64,
    pub fuel: u64,
    pub spent: u64,
    /// The cost of the record that it stopped before.
    pub stopped: Option<u64>,
}

/// What a stack knows of itself beside its two lent buffers.
#[derive(Clone, Copy, Debug, Default, PartialEq, Eq, Hash)]
pub struct State {
    pub depth: u64,
    pub height: u64,
    pub words: u64,
    pub cells: u64,
    pub count: u64,
    pub len: u64,
    pub current: Option<u64>,
    pub regs: Regs,
}
