//! How much stack a call takes, measured by letting it run on a stack of its
//! own that was filled with one byte before.

use std::arch::asm;
use std::ffi::c_void;

const SIZE: usize = 256 * 1024;
const UNUSED: u8 = 0xA5;

/// The bytes of stack used by `call`, with the few that start it.
pub fn bytes_used<F: FnMut()>(mut call: F) -> usize {
    let mut stack = vec![UNUSED; SIZE];
    let end = stack.as_mut_ptr_range().end as usize & !15;
    let call: *mut F = &mut call;
    // SAFETY: the stack pointer is put back before anything else runs, r12 is
    // kept by the function called, and `start` gets a pointer to an F.
    unsafe {
        asm!(
            "mov r12, rsp",
            "mov rsp, {end}",
            "call {start}",
            "mov rsp, r12",
            end = in(reg) end,
            start = in(reg) start::<F> as extern "C" fn(*mut c_void),
            in("rdi") call.cast::<c_void>(),
            out("r12") _,
            clobber_abi("C"),
        );
    }
    let untouched = stack.iter().take_while(|&&byte| byte == UNUSED).count();
    assert!(
        untouched > 0,
        "the call takes {SIZE} bytes of stack or more"
    );
    SIZE - untouched
}

extern "C" fn start<F: FnMut()>(call: *mut c_void) {
    // SAFETY: `bytes_used` passes its own closure, which nothing else uses.
    unsafe { (*call.cast::<F>())() }
}
