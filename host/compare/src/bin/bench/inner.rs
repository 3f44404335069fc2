//! Inner calls of the library, which the C functions of `bicycle` do not answer alone.
//!
//! The static library `timing` has them for the benchmark, from the same crates.

use bicycle::Pair;
use compare::model::{Code, NATIVES, measures};

use crate::clock::round;

#[repr(C)]
struct OneNative {
    string: u32,
    kept: bool,
}

#[link(name = "timing", kind = "static")]
#[rustfmt::skip] // a slice's pointer and length stay on one line
unsafe extern "C" {
    fn timing_strings_unchecked(
        mx: *const u8, mx_len: usize,
        my: *const u8, my_len: usize,
        out: *mut u32, out_len: usize,
    );
    fn timing_natives_unchecked(
        mx: *const u8, mx_len: usize,
        my: *const u8, my_len: usize,
        n: usize,
    ) -> OneNative;
}

// Both ask for what nothing tests: 36 numbers 0 or 1 for each matrix, as every pair here has, room
// for all natives, and the number of one. For the rest they are sound as the functions of `ffi` are.

/// The strings of all natives.
fn strings(pair: &Pair, out: &mut [u32; NATIVES]) {
    let ((x, y), out_len) = ((&pair.mx, &pair.my), out.len());
    let out = out.as_mut_ptr();
    unsafe { timing_strings_unchecked(x.as_ptr(), x.len(), y.as_ptr(), y.len(), out, out_len) }
}

/// Forms all natives with their kept flags, and answers those of one.
fn natives(pair: &Pair, n: usize) -> (u32, bool) {
    assert!(n < NATIVES);
    let (x, y) = (&pair.mx, &pair.my);
    let one = unsafe { timing_natives_unchecked(x.as_ptr(), x.len(), y.as_ptr(), y.len(), n) };
    (one.string, one.kept)
}

/// Times both, of the pairs in turn.
pub fn timed_in_turn(name: &str, pairs: &[Pair], numbers: &[u32]) {
    pairs.iter().take(10).for_each(hold);
    let mut in_turn = pairs.iter().cycle();
    let mut next = || in_turn.next().expect("a pair");
    let mut out = [0; NATIVES];
    round(&format!("{name}-natives"), numbers, |n| {
        natives(next(), n as usize)
    });
    round(&format!("{name}-strings"), numbers, |n| {
        strings(next(), &mut out);
        out[n as usize]
    });
}

/// Stops unless what is timed gives the right answers.
fn hold(pair: &Pair) {
    let code = Code::new(pair);
    let mut all = [0; NATIVES];
    strings(pair, &mut all);
    for (n, &string) in all.iter().enumerate() {
        let kept = code.kept(string) == Some(n as u16);
        assert_eq!(string, measures(pair, n));
        assert_eq!(natives(pair, n), (string, kept));
    }
}
