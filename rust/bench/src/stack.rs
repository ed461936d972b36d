//! How much stack calls use. The stack below them is filled with a byte, the calls run, and the deepest byte that changed is
//! searched. Inline assembly reads the stack pointer and writes the bytes, because a function that did so would have its frame in
//! that area.

use std::arch::asm;

/// How many bytes below the stack pointer are filled: much less than any thread's stack.
const PAINTED: usize = 64 * 1024;

#[inline(always)]
fn stack_pointer() -> usize {
    let at: usize;
    // SAFETY: this only reads a register.
    unsafe {
        #[cfg(target_arch = "aarch64")]
        asm!("mov {}, sp", out(reg) at);
        #[cfg(target_arch = "x86_64")]
        asm!("mov {}, rsp", out(reg) at);
    }
    at
}

/// # Safety
/// The byte may be written, and nothing lives there.
#[inline(always)]
unsafe fn put(at: usize, colour: u8) {
    #[cfg(target_arch = "aarch64")]
    asm!("strb {:w}, [{}]", in(reg) colour, in(reg) at);
    #[cfg(target_arch = "x86_64")]
    asm!("mov byte ptr [{}], {}", in(reg) at, in(reg_byte) colour);
}

/// How far below this function's frame the calls wrote.
#[inline(never)]
fn written_below(calls: &mut dyn FnMut(), colour: u8) -> usize {
    let top = stack_pointer();
    let mut at = top - PAINTED;
    while at < top {
        // SAFETY: nothing live is below the stack pointer, and the thread's stack extends further down.
        unsafe { put(at, colour) };
        at += 1;
    }
    calls();
    at = top - PAINTED;
    // SAFETY: as above; every byte was written.
    while at < top && unsafe { *(at as *const u8) } == colour {
        at += 1;
    }
    top - at
}

/// The most bytes of stack that the calls use. Measured with two fill bytes, because a call may write the fill byte itself at its
/// deepest point.
pub fn used_by(mut calls: impl FnMut()) -> usize {
    let [one, other] = [0x5a, 0xa7].map(|colour| written_below(&mut calls, colour));
    one.max(other)
}

#[cfg(test)]
mod tests {
    use super::used_by;
    use std::hint::black_box;

    #[inline(never)]
    fn fill<const SIZE: usize>() {
        black_box([1u8; SIZE]);
    }

    #[test]
    fn an_array_on_the_stack_is_counted() {
        let (little, much) = (used_by(fill::<100>), used_by(fill::<5000>));
        assert!((100..1000).contains(&little), "{little}");
        assert!((5000..6000).contains(&much), "{much}");
    }
}
