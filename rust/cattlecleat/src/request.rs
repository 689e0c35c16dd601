//! The nine requests as values: what a trace records, and what the methods of a stack take.

/// A call: the callee's cells begin at the caller's start plus the head.
#[derive(Clone, Copy, Debug, Default, PartialEq, Eq, Hash)]
pub struct PushArgs {
    /// The caller's ip, which is stored in its frame: given exactly when there is one.
    pub caller: Option<u64>,
    /// The callee's ip.
    pub callee: u64,
    /// From the caller's start to the callee's: where the parameters lie.
    pub head: u16,
    /// How many parameters.
    pub params: u16,
    /// How many locals, the parameters among them; those behind the parameters are zeroed.
    pub locals: u16,
    /// How many slots, the locals among them.
    pub slots: u16,
    /// The callee's instance, where it is named.
    pub instance: Option<u64>,
}

/// A tail call: the callee takes the place of the top frame, and its parameters are copied there.
#[derive(Clone, Copy, Debug, Default, PartialEq, Eq, Hash)]
pub struct ReplaceArgs {
    /// The callee's ip.
    pub callee: u64,
    /// From the frame's start to the parameters.
    pub head: u16,
    /// How many parameters.
    pub params: u16,
    /// How many locals, the parameters among them; those behind the parameters are zeroed.
    pub locals: u16,
    /// How many slots, the locals among them.
    pub slots: u16,
    /// The callee's instance, where it is named.
    pub instance: Option<u64>,
}

/// A call of a host's function.
#[derive(Clone, Copy, Debug, Default, PartialEq, Eq, Hash)]
pub struct HostArgs {
    /// The caller's ip, which is stored in its frame where it is given.
    pub caller: Option<u64>,
    /// From the caller's start to the host's.
    pub head: u16,
    /// How many parameters.
    pub params: u16,
    /// How many results.
    pub results: u16,
}

/// A tail call of a host's function: the top frame goes, and the parameters are copied to its start.
#[derive(Clone, Copy, Debug, Default, PartialEq, Eq, Hash)]
pub struct ReturnHostArgs {
    /// From the frame's start to the parameters.
    pub head: u16,
    /// How many parameters.
    pub params: u16,
    /// How many results.
    pub results: u16,
    /// The instance that the return answers where the frame has no debt.
    pub instance: u64,
}

/// One of the nine requests that a trace can record.
///
/// ```
/// use cattlecleat::{PushArgs, Request, read_record};
///
/// let request = Request::Push(PushArgs { callee: 100, locals: 2, slots: 4, instance: Some(1), ..PushArgs::default() });
/// let record = request.to_record();
/// assert_eq!(record[..2], [1, 2]);    // kind push, and the flag of a given instance
/// assert_eq!(read_record(&record, 0), Ok(request));
/// ```
#[derive(Clone, Copy, Debug, PartialEq, Eq, Hash)]
pub enum Request {
    /// Kind 1, see [`Stack::push_frame`](crate::Stack::push_frame).
    Push(PushArgs),
    /// Kind 2 with an instance, see [`Stack::pop_frame`](crate::Stack::pop_frame).
    Pop(u64),
    /// Kind 3, see [`Stack::replace_frame`](crate::Stack::replace_frame).
    Replace(ReplaceArgs),
    /// Kind 4, see [`Stack::prepare_host_frame`](crate::Stack::prepare_host_frame).
    Host(HostArgs),
    /// Kind 5, see [`Stack::return_prepare_host_frame`](crate::Stack::return_prepare_host_frame).
    ReturnHost(ReturnHostArgs),
    /// Kind 6 with an ip, see [`Stack::sync_ip`](crate::Stack::sync_ip).
    Sync(u64),
    /// Kind 7, see [`Stack::restore_frame`](crate::Stack::restore_frame).
    Restore,
    /// Kind 8, see [`Stack::reset`](crate::Stack::reset).
    Reset,
    /// Kind 9 with a head and a cell, see [`Stack::set`](crate::Stack::set).
    Set(u16, u64),
}
