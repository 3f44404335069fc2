//! The command `bicycle`: reads its words, does one thing with the library, and tells the answer.

mod commands;
mod files;
mod help;
mod letters;
mod tables;
mod told;
mod words;
mod working;

use std::process::ExitCode;

fn main() -> ExitCode {
    told::tell(commands::run(std::env::args_os().skip(1)))
}
