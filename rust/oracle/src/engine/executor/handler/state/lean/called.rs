//! The requests of a call behind calls: what the Rust costs as a library that is linked and not inlined.
//! It has a loop of its own, since one for both changes what the compiler makes of the inlined requests.

use super::request;
use super::*;

/// Does requests that were decoded beforehand, all of them calls, with a call for each.
///
/// # Safety
///
/// As for [`ask_all`].
pub unsafe fn call_all(stack: &mut Stack, requests: &[Request]) -> Result<Sums, TrapCode> {
    let (mut sp, mut sums) = (stack.base_sp(), Sums::default());
    for request in requests {
        sp = match request {
            Request::Push(caller, f) => push(stack, sp, *caller, f)?,
            Request::Pop(instance) => pop(stack, *instance, &mut sums),
            Request::Replace(f) => replace(stack, sp, f)?,
            Request::Host(caller, params, results) => host(stack, *caller, *params, *results, &mut sums)?,
            Request::ReturnHost(params, results, instance) => return_host(stack, *params, *results, *instance, &mut sums)?,
            _ => unreachable!("no call: {request:?}"),
        };
        sums.offset(sp);
    }
    Ok(from_base(stack, requests.len(), sums))
}

#[inline(never)]
fn push(stack: &mut Stack, sp: Sp, caller: Option<Ip>, f: &Callee) -> Result<Sp, TrapCode> {
    stack.push_frame(sp, caller, f.ip, f.params, f.locals, f.slots, f.instance)
}

#[inline(never)]
fn pop(stack: &mut Stack, instance: Inst, sums: &mut Sums) -> Sp {
    request::pop(stack, instance, sums)
}

#[inline(never)]
fn replace(stack: &mut Stack, sp: Sp, f: &Callee) -> Result<Sp, TrapCode> {
    stack.replace_frame(sp, f.ip, f.params, f.locals, f.slots, f.instance)
}

#[inline(never)]
fn host(stack: &mut Stack, caller: Option<Ip>, params: BoundedSlotSpan, results: u16, sums: &mut Sums) -> Result<Sp, TrapCode> {
    request::host(stack, caller, params, results, sums)
}

#[inline(never)]
fn return_host(stack: &mut Stack, params: BoundedSlotSpan, results: u16, instance: Inst, sums: &mut Sums) -> Result<Sp, TrapCode> {
    request::return_host(stack, params, results, instance, sums)
}
