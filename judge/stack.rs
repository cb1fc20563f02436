//! How much stack a call of the C library uses: it is run on a painted stack of its own, and the paint that is gone is counted.
//! Switching the stack takes a few instructions that no compiler makes by itself, so they stand here for two processors.

use std::arch::asm;
use std::ffi::c_void;

const ROOM: usize = 64 * 1024;
/// Two paints, so that a call that happens to write the one is seen by the other.
const PAINTS: [u8; 2] = [0xC3, 0x3C];

/// A call: the function, and its arguments as the C boundary passes them (pointers and counts, at most five).
pub struct Call {
    pub function: *const c_void,
    pub arguments: [usize; 5],
}

/// A stack that stands on a 16-byte boundary, as both processors ask.
#[repr(align(16))]
struct Room([u8; ROOM]);

pub struct Stack(Box<Room>);

impl Stack {
    pub fn new() -> Self {
        Stack(Box::new(Room([0; ROOM])))
    }

    /// The bytes from the top of the stack to the deepest that the call touched. The call is made ready anew for each paint, since it may
    /// change what it is lent.
    ///
    /// # Safety
    /// The arguments must be what the function asks for.
    pub unsafe fn used(&mut self, mut ready: impl FnMut() -> Call) -> usize {
        let mut most = 0;
        for paint in PAINTS {
            let call = ready();
            self.0.0.fill(paint);
            let top = self.0.0.as_mut_ptr_range().end;
            // SAFETY: the stack is ours and larger than any call uses (see below); the rest is asked of the caller.
            unsafe { run(top, &call) };
            let left = self.0.0.iter().take_while(|&&b| b == paint).count();
            assert!(left > ROOM / 2, "a call used more stack than there is to measure");
            most = most.max(ROOM - left);
        }
        most
    }
}

#[cfg(target_arch = "x86_64")]
unsafe fn run(top: *mut u8, call: &Call) {
    let [a, b, c, d, e] = call.arguments;
    // SAFETY: see `Stack::used`; r12 is kept by every callee.
    unsafe {
        asm!("mov r12, rsp", "mov rsp, {top}", "call {function}", "mov rsp, r12",
             top = in(reg) top, function = in(reg) call.function, out("r12") _,
             in("rdi") a, in("rsi") b, in("rdx") c, in("rcx") d, in("r8") e, clobber_abi("C"));
    }
}

#[cfg(target_arch = "aarch64")]
unsafe fn run(top: *mut u8, call: &Call) {
    let [a, b, c, d, e] = call.arguments;
    // SAFETY: see `Stack::used`; x20 is kept by every callee.
    unsafe {
        asm!("mov x20, sp", "mov sp, {top}", "blr {function}", "mov sp, x20",
             top = in(reg) top, function = in(reg) call.function, out("x20") _,
             in("x0") a, in("x1") b, in("x2") c, in("x3") d, in("x4") e, clobber_abi("C"));
    }
}
