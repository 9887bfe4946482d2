//! How much stack a call takes, on x86-64: it is run on a stack of its own, which is painted before.

use std::arch::asm;

/// The length of the stack in words, more than any call takes.
const WORDS: usize = 1 << 17;

/// What each word of the stack holds before.
const PAINT: u64 = 0x5eed_0f7a_9ec0_1015;

/// The bytes of stack that a call takes, which may not unwind.
pub fn depth(mut call: impl FnMut()) -> usize {
    let mut stack = vec![PAINT; WORDS];
    let mut call: &mut dyn FnMut() = &mut call;
    let range = stack.as_mut_ptr_range();
    // A stack starts at a multiple of 16.
    let top = range.end as usize / 16 * 16;
    // SAFETY: the stack is as long as the call needs and nothing else is in it; `run` gets what it takes and keeps the registers that its convention
    // says; the stack pointer is put back.
    unsafe {
        asm!(
            "mov r12, rsp",
            "mov rsp, {top}",
            "call {run}",
            "mov rsp, r12",
            top = in(reg) top,
            run = sym run,
            in("rdi") &mut call,
            out("r12") _,
            clobber_abi("sysv64"),
        );
    }
    let painted = stack.iter().take_while(|&&word| word == PAINT).count();
    assert!(painted > 0, "the stack is too short");
    top - (range.start as usize + 8 * painted)
}

/// Makes the call.
extern "sysv64" fn run(call: &mut &mut dyn FnMut()) {
    call();
}
