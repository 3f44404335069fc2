//! Times the library beside the original, and prints Markdown tables: best and median of several
//! rounds, ratios, and which targets are met.
//!
//! Each build runs in a child process of its own, so that the peak memory is that of one build.

use std::process::ExitCode;

use bicycle::Code;

mod children;
mod clock;
mod growth;
mod inner;
mod memory;
mod said;
mod stack;
mod table;
mod targets;
mod topics;

use said::Said;

fn main() -> ExitCode {
    let words: Vec<String> = std::env::args().skip(1).collect();
    let words: Vec<&str> = words.iter().map(String::as_str).collect();
    match words[..] {
        ["child", "ours", code] => children::ours(code),
        ["child", "original", code] => children::original(code),
        ["child", "lookups", code, rounds] => children::lookups(code, number(rounds)),
        ["child", "our-lookups", code, rounds] => children::our_lookups(code, number(rounds)),
        ["child", "of-pair", code, rounds] => children::of_pair(code, number(rounds)),
        ["child", "of-none", rounds] => children::of_none(number(rounds)),
        ["child", "growth", rounds] => growth::child(number(rounds)),
        ["child", "stack"] => stack::child(),
        _ => match Asked::read(&words) {
            Some(asked) => asked.answer(),
            None => {
                eprintln!("bench [--rounds N] [--ours]");
                return ExitCode::from(2);
            }
        },
    }
    ExitCode::SUCCESS
}

fn number(word: &str) -> usize {
    word.parse().expect("a number of rounds")
}

/// How many rounds of everything, and whether the original builds too.
struct Asked {
    rounds: usize,
    original: bool,
}

impl Asked {
    fn read(mut words: &[&str]) -> Option<Asked> {
        let mut asked = Asked {
            rounds: 3,
            original: true,
        };
        loop {
            words = match words {
                [] => return Some(asked),
                ["--ours", rest @ ..] => {
                    asked.original = false;
                    rest
                }
                ["--rounds", n, rest @ ..] => {
                    asked.rounds = n.parse().ok().filter(|&n| n > 0)?;
                    rest
                }
                _ => return None,
            }
        }
    }

    fn answer(&self) {
        let mut said = Said::default();
        let rounds = self.rounds.to_string();
        for code in Code::ALL.map(Code::name) {
            let prefix = format!("{code}-");
            for left in (0..self.rounds).rev() {
                said.child(&["ours", code], &prefix);
                // lookups are timed on the tables of the last round
                match (self.original, left) {
                    (true, 0) => said.child(&["lookups", code, &rounds], &prefix),
                    (true, _) => said.child(&["original", code], &prefix),
                    (false, 0) => said.child(&["our-lookups", code, &rounds], &prefix),
                    (false, _) => (),
                }
            }
            said.child(&["of-pair", code, &rounds], &prefix);
        }
        said.child(&["of-none", &rounds], "");
        said.child(&["growth", &rounds], "");
        said.child(&["stack"], "");
        topics::print(&said);
        targets::print(&said);
    }
}
