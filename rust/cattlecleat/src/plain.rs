//! Requests to and from the plain form in which the archive takes them.
use crate::{HostArgs, PushArgs, Refusal, ReplaceArgs, Request, ReturnHostArgs, raw};

/// A flag and the number beside it, as the archive takes them.
#[inline]
fn given(number: Option<u64>) -> (u64, u64) {
    (u64::from(number.is_some()), number.unwrap_or(0))
}

/// The number beside a flag, where it is given.
fn number_if(flag: u64, number: u64) -> Option<u64> {
    (flag != 0).then_some(number)
}

impl From<PushArgs> for raw::Push {
    #[inline]
    fn from(q: PushArgs) -> Self {
        let (caller_flag, caller) = given(q.caller);
        let (instance_flag, instance) = given(q.instance);
        Self {
            head: q.head,
            params: q.params,
            locals: q.locals,
            slots: q.slots,
            caller_flag,
            caller,
            callee: q.callee,
            instance_flag,
            instance,
        }
    }
}

impl From<ReplaceArgs> for raw::Replace {
    #[inline]
    fn from(q: ReplaceArgs) -> Self {
        let (instance_flag, instance) = given(q.instance);
        Self {
            head: q.head,
            params: q.params,
            locals: q.locals,
            slots: q.slots,
            callee: q.callee,
            instance_flag,
            instance,
        }
    }
}

impl From<HostArgs> for raw::Host {
    #[inline]
    fn from(q: HostArgs) -> Self {
        let (caller_flag, caller) = given(q.caller);
        Self {
            head: q.head,
            params: q.params,
            results: q.results,
            caller_flag,
            caller,
        }
    }
}

impl From<ReturnHostArgs> for raw::ReturnHost {
    #[inline]
    fn from(q: ReturnHostArgs) -> Self {
        Self {
            head: q.head,
            params: q.params,
            results: q.results,
            instance: q.instance,
        }
    }
}

impl From<PushArgs> for raw::Request {
    #[inline]
    fn from(q: PushArgs) -> Self {
        let (caller_flag, caller) = given(q.caller);
        let (instance_flag, instance) = given(q.instance);
        Self {
            kind: 1,
            head: q.head,
            params: q.params,
            locals: q.locals,
            slots: q.slots,
            results: 0,
            caller_flag,
            caller,
            callee: q.callee,
            instance_flag,
            instance,
        }
    }
}

impl From<ReplaceArgs> for raw::Request {
    #[inline]
    fn from(q: ReplaceArgs) -> Self {
        let (instance_flag, instance) = given(q.instance);
        Self {
            kind: 3,
            head: q.head,
            params: q.params,
            locals: q.locals,
            slots: q.slots,
            callee: q.callee,
            instance_flag,
            instance,
            ..Self::default()
        }
    }
}

impl From<HostArgs> for raw::Request {
    #[inline]
    fn from(q: HostArgs) -> Self {
        let (caller_flag, caller) = given(q.caller);
        Self {
            kind: 4,
            head: q.head,
            params: q.params,
            results: q.results,
            caller_flag,
            caller,
            ..Self::default()
        }
    }
}

impl From<ReturnHostArgs> for raw::Request {
    #[inline]
    fn from(q: ReturnHostArgs) -> Self {
        Self {
            kind: 5,
            head: q.head,
            params: q.params,
            results: q.results,
            instance_flag: 1,
            instance: q.instance,
            ..Self::default()
        }
    }
}

impl From<Request> for raw::Request {
    #[inline]
    fn from(request: Request) -> Self {
        match request {
            Request::Push(q) => q.into(),
            Request::Pop(instance) => Self {
                kind: 2,
                instance_flag: 1,
                instance,
                ..Self::default()
            },
            Request::Replace(q) => q.into(),
            Request::Host(q) => q.into(),
            Request::ReturnHost(q) => q.into(),
            Request::Sync(caller) => Self {
                kind: 6,
                caller,
                ..Self::default()
            },
            Request::Restore => Self {
                kind: 7,
                ..Self::default()
            },
            Request::Reset => Self {
                kind: 8,
                ..Self::default()
            },
            Request::Set(head, callee) => Self {
                kind: 9,
                head,
                callee,
                ..Self::default()
            },
        }
    }
}

impl TryFrom<raw::Request> for Request {
    type Error = Refusal;

    /// What the kind does not use is not looked at. [`Refusal::BadRecord`] where the kind is none of the nine.
    fn try_from(q: raw::Request) -> Result<Self, Refusal> {
        Ok(match q.kind {
            1 => Self::Push(push_from(q)),
            2 => Self::Pop(q.instance),
            3 => Self::Replace(replace_from(q)),
            4 => Self::Host(host_from(q)),
            5 => Self::ReturnHost(return_host_from(q)),
            6 => Self::Sync(q.caller),
            7 => Self::Restore,
            8 => Self::Reset,
            9 => Self::Set(q.head, q.callee),
            _ => return Err(Refusal::BadRecord),
        })
    }
}

fn push_from(q: raw::Request) -> PushArgs {
    PushArgs {
        caller: number_if(q.caller_flag, q.caller),
        callee: q.callee,
        head: q.head,
        params: q.params,
        locals: q.locals,
        slots: q.slots,
        instance: number_if(q.instance_flag, q.instance),
    }
}

fn replace_from(q: raw::Request) -> ReplaceArgs {
    ReplaceArgs {
        callee: q.callee,
        head: q.head,
        params: q.params,
        locals: q.locals,
        slots: q.slots,
        instance: number_if(q.instance_flag, q.instance),
    }
}

fn host_from(q: raw::Request) -> HostArgs {
    HostArgs {
        caller: number_if(q.caller_flag, q.caller),
        head: q.head,
        params: q.params,
        results: q.results,
    }
}

fn return_host_from(q: raw::Request) -> ReturnHostArgs {
    ReturnHostArgs {
        head: q.head,
        params: q.params,
        results: q.results,
        instance: q.instance,
    }
}
