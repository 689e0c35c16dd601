//! Requests of a program to the callgrind that runs it. Without one they do nothing.

use std::arch::asm;
use std::ffi::CStr;

/// `CALLGRIND_ZERO_STATS` and `CALLGRIND_DUMP_STATS_AT` of valgrind/callgrind.h.
const ZERO: u64 = 0x4354_0001;
const DUMP_AT: u64 = 0x4354_0003;

pub fn zero_counts() {
    // SAFETY: the request takes nothing.
    unsafe { client_request(ZERO, 0) };
}

pub fn dump_counts(name: &CStr) {
    // SAFETY: the request takes the address of a C string.
    unsafe { client_request(DUMP_AT, name.as_ptr() as u64) };
}

/// The instructions that valgrind takes as a request to itself. A processor turns rdi around twice, and that is all.
///
/// # Safety
///
/// The request gets what it takes.
unsafe fn client_request(request: u64, argument: u64) {
    let request = [request, argument, 0, 0, 0, 0];
    // SAFETY: rdi and rbx are as before; valgrind reads the six words, and writes its answer to rdx.
    unsafe {
        asm!(
            "rol rdi, 3",
            "rol rdi, 13",
            "rol rdi, 61",
            "rol rdi, 51",
            "xchg rbx, rbx",
            in("rax") &request,
            inout("rdx") 0_u64 => _,
            options(nostack)
        );
    }
}
