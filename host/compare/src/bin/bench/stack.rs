//! How much stack the calls take: each runs on a painted stack of its own, and what is no longer
//! painted was used.

use std::arch::asm;
use std::ffi::c_void;
use std::hint::black_box;

use bicycle::{Code, Pair, TABLE_LENGTH, ffi};

use crate::clock::say;

/// A word of paint, which no call writes by chance. A stack is made of such words because it has to
/// end at a multiple of 16.
const PAINT: u128 = 0x6b1f_93d2_0ea7_5c48_b96d_11f4_83ca_2e57;
/// So much is painted, in bytes: far more than any call should take.
const ROOM: usize = 8 << 20;

/// The calls that use a table, on that of gross.
pub fn child() {
    let Pair { mx, my } = Code::ALL[0].pair();
    let (mut table, mut queue) = (vec![0; TABLE_LENGTH], vec![0; TABLE_LENGTH]);
    used("stack-build", || {
        black_box(ffi::build(&mut table, &mut queue, &mx, &my));
    });
    used("stack-check", || {
        black_box(ffi::check(&table, &mx, &my));
    });
    let mut out = [0; 32];
    used("stack-exact", || {
        for p in (1..100_000).step_by(2) {
            black_box(ffi::implementation(&table, &mx, &my, p, &mut out));
        }
    });
    used("stack-free", || {
        for p in (0..100_000).step_by(2) {
            black_box(ffi::min_data(&table, &mx, &my, p, &mut out));
        }
    });
}

/// Says how much stack a call takes, with the few words of the Rust around it.
fn used<F: FnOnce()>(name: &str, call: F) {
    let mut stack = vec![PAINT; ROOM / size_of::<u128>()];
    let mut call = Some(call);
    let data: *mut Option<F> = &mut call;
    // sound: the stack is far larger than what is used of it, which is held to below, and `run::<F>`
    // finds behind the pointer what it was made for
    unsafe { on_stack(stack.as_mut_ptr_range().end, run::<F>, data.cast()) };
    let untouched = stack.iter().take_while(|&&word| word == PAINT).count();
    let bytes = (stack.len() - untouched) * size_of::<u128>();
    assert!(bytes < ROOM / 2, "{name}: {bytes} bytes of stack");
    say(name, bytes as f64, "B");
}

extern "C" fn run<F: FnOnce()>(call: *mut c_void) {
    let call = unsafe { &mut *call.cast::<Option<F>>() };
    if let Some(call) = call.take() {
        call();
    }
}

/// Calls a function with another stack, of which `top` is the end. A function keeps r12 for its
/// caller, so the old stack waits there.
unsafe fn on_stack(top: *mut u128, run: extern "C" fn(*mut c_void), data: *mut c_void) {
    unsafe {
        asm!(
            "xchg rsp, r12",
            "call {run}",
            "mov rsp, r12",
            run = in(reg) run,
            in("rdi") data,
            inout("r12") top => _,
            clobber_abi("C"),
        );
    }
}
