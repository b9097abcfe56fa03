//! How much stack a call uses: the stack below it is painted, and the deepest word that the call changed is looked for.

use std::arch::asm;
use std::thread;

const PAINTED_WORDS: usize = 1 << 13;
const PAINT: u64 = 0xA5C3_5A3C_9669_F00F;

/// Runs something on a thread with room enough to paint.
pub fn on_large_stack<T: Send + 'static>(run: impl FnOnce() -> T + Send + 'static) -> T {
    thread::Builder::new().stack_size(1 << 22).spawn(run).expect("a thread").join().expect("a run to its end")
}

fn stack_pointer() -> usize {
    let pointer: usize;
    // SAFETY: reads a register.
    unsafe {
        #[cfg(target_arch = "x86_64")]
        asm!("mov {0}, rsp", out(reg) pointer, options(nomem, nostack, preserves_flags));
        #[cfg(target_arch = "aarch64")]
        asm!("mov {0}, sp", out(reg) pointer, options(nomem, nostack, preserves_flags));
    }
    pointer
}

/// How many bytes below this function's own frame a call writes to. The painting itself calls nothing once it is optimised, so it stands
/// in no frame that it paints over.
#[inline(never)]
pub fn depth(call: &mut dyn FnMut()) -> usize {
    let top = stack_pointer();
    for k in 1..=PAINTED_WORDS {
        // SAFETY: the thread's stack is much larger, and nothing below the stack pointer is in use.
        unsafe { ((top - 8 * k) as *mut u64).write_volatile(PAINT) };
    }
    call();
    let mut deepest = PAINTED_WORDS;
    // SAFETY: as above.
    while deepest > 0 && unsafe { ((top - 8 * deepest) as *const u64).read_volatile() } == PAINT {
        deepest -= 1;
    }
    8 * deepest
}
