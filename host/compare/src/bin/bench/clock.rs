//! Times and memory of this process, said to its parent by lines of a name, a number and its unit.

use std::hint::black_box;
use std::time::Instant;

#[repr(C)]
struct Time {
    seconds: i64,
    nanoseconds: i64,
}

unsafe extern "C" {
    fn clock_gettime(clock: i32, time: *mut Time) -> i32;
}

/// CPU time of this thread so far, in seconds. Linux has it in a file too, but there only as of
/// the last tick of the scheduler, some milliseconds ago.
fn cpu() -> f64 {
    const THREAD: i32 = 3;
    let mut time = Time {
        seconds: 0,
        nanoseconds: 0,
    };
    // sound: it writes the struct that it is lent, which has C's layout on x86-64 Linux
    let status = unsafe { clock_gettime(THREAD, &mut time) };
    assert_eq!(status, 0, "Linux has this clock");
    time.seconds as f64 + time.nanoseconds as f64 / 1e9
}

pub fn say(name: &str, number: f64, unit: &str) {
    println!("{name} {number} {unit}");
}

/// Says the CPU time and the wall time of something.
pub fn timed<T>(name: &str, run: impl FnOnce() -> T) -> T {
    timed_by_the_call(name, 1, run)
}

/// A round of a call over many inputs.
pub fn round<T>(name: &str, inputs: &[u32], mut call: impl FnMut(u32) -> T) {
    timed_by_the_call(name, inputs.len(), || {
        for &input in inputs {
            black_box(call(black_box(input)));
        }
    });
}

pub fn timed_by_the_call<T>(name: &str, calls: usize, run: impl FnOnce() -> T) -> T {
    let (cpu_before, start) = (cpu(), Instant::now());
    let answer = run();
    let (cpu, wall) = (cpu() - cpu_before, start.elapsed().as_secs_f64());
    say(name, cpu / calls as f64, "s");
    say(&format!("{name}-wall"), wall / calls as f64, "s");
    answer
}

/// Says the greatest memory that this process had so far.
pub fn peak_memory(name: &str) {
    let text = std::fs::read_to_string("/proc/self/status").expect("Linux tells");
    let line = text
        .lines()
        .find_map(|line| line.strip_prefix("VmHWM:"))
        .expect("its line");
    let kib: f64 = line
        .trim()
        .trim_end_matches(" kB")
        .parse()
        .expect("a number");
    say(name, 1024.0 * kib, "B");
}
