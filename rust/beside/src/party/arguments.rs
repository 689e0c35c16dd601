//! The arguments of the functions in place, of a request in the struct of those by value.

use cattlecleat::raw::{Host, Push, Replace, Request, ReturnHost};

pub fn push(q: &Request) -> Push {
    Push {
        head: q.head,
        params: q.params,
        locals: q.locals,
        slots: q.slots,
        caller_flag: q.caller_flag,
        caller: q.caller,
        callee: q.callee,
        instance_flag: q.instance_flag,
        instance: q.instance,
    }
}

pub fn replace(q: &Request) -> Replace {
    Replace {
        head: q.head,
        params: q.params,
        locals: q.locals,
        slots: q.slots,
        callee: q.callee,
        instance_flag: q.instance_flag,
        instance: q.instance,
    }
}

pub fn host(q: &Request) -> Host {
    Host {
        head: q.head,
        params: q.params,
        results: q.results,
        caller_flag: q.caller_flag,
        caller: q.caller,
    }
}

pub fn return_host(q: &Request) -> ReturnHost {
    ReturnHost {
        head: q.head,
        params: q.params,
        results: q.results,
        instance: q.instance,
    }
}
