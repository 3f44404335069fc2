//! Shows on a terminal that something long is being done, and for how many seconds.

use std::io::{self, IsTerminal, Write};
use std::sync::mpsc::{self, Receiver, RecvTimeoutError};
use std::thread;
use std::time::{Duration, Instant};

/// Does the work; meanwhile one line on standard error says so, where that is a terminal.
pub fn working<T>(what: &str, work: impl FnOnce() -> T) -> T {
    if !io::stderr().is_terminal() {
        return work();
    }
    let (working, done) = mpsc::channel();
    thread::scope(|scope| {
        scope.spawn(|| show(what, done));
        let answer = work();
        drop(working);
        answer
    })
}

/// Writes the line anew each second, and wipes it once the other end is dropped.
fn show(what: &str, done: Receiver<()>) {
    let begin = Instant::now();
    let mut width = 0;
    loop {
        let line = format!("{what}: {} s", begin.elapsed().as_secs());
        width = width.max(line.chars().count());
        put(&format!("\r{line}"));
        if done.recv_timeout(Duration::from_secs(1)) != Err(RecvTimeoutError::Timeout) {
            return put(&format!("\r{:width$}\r", ""));
        }
    }
}

fn put(text: &str) {
    let mut err = io::stderr();
    let _ = err.write_all(text.as_bytes()).and_then(|()| err.flush());
}
