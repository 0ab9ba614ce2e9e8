//! How much stack a call uses: it runs on a stack of our own that was painted before, and the paint that is gone tells.

use std::arch::asm;
use std::ffi::c_void;
use std::hint::black_box;

const PAINT: u8 = 0xA5;
const SIZE: usize = 1 << 20;

/// Bytes of stack that `call` uses, beyond what an empty call uses. A byte may be written with the paint's own value, so the number
/// is right to a few bytes.
pub fn used_by<T>(mut call: impl FnMut() -> T) -> usize {
    let used = deepest(&mut || {
        black_box(call());
    });
    used.saturating_sub(deepest(&mut || {}))
}

fn deepest(mut call: &mut dyn FnMut()) -> usize {
    let mut stack = vec![PAINT; SIZE];
    let call: *mut &mut dyn FnMut() = &mut call;
    // The stack grows down from an address that the calling convention wants divisible by 16.
    let top = (stack.as_mut_ptr() as usize + SIZE) & !15;
    // SAFETY: `run` and all it calls find a megabyte of stack that is theirs alone; r12 keeps the old stack pointer, since every
    // function of this calling convention restores it.
    unsafe {
        asm!(
            "xchg rsp, r12",
            "call {run}",
            "mov rsp, r12",
            run = sym run,
            inout("r12") top => _,
            in("rdi") call.cast::<c_void>(),
            clobber_abi("C"),
        );
    }
    let untouched = stack.iter().take_while(|&&byte| byte == PAINT).count();
    assert!(untouched > 0, "the call needs more than the painted stack");
    SIZE - untouched
}

/// # Safety
/// `call` points to a call that nobody else uses meanwhile.
unsafe extern "C" fn run(call: *mut c_void) {
    (*call.cast::<&mut dyn FnMut()>())();
}
