//! The comparison: one line for each topic, or the first difference in full and status 1.

use std::process::ExitCode;
use std::time::Instant;

use compare::report::Tally;
use compare::topics::{Extent, TOPICS, Topic};

const HELP: &str = "\
compare [--quick] [TOPIC ..]
compare --write-vectors

Compares the library with the original, and with document 01 where the original has no such call.
Without --quick everything is compared, which takes a quarter of an hour and more. --write-vectors
makes the stored answers of crates/vectors anew, by the original. The topics, in order:";

fn main() -> ExitCode {
    let mut extent = Extent::Whole;
    let mut named = vec![];
    for word in std::env::args().skip(1) {
        match word.as_str() {
            "--quick" => extent = Extent::Quick,
            "--help" => return help(),
            #[cfg(feature = "original")]
            "--write-vectors" => return write_vectors(),
            _ => match TOPICS.iter().find(|topic| topic.name == word) {
                Some(topic) => named.push(topic),
                None => {
                    eprintln!("compare: {word} is none of its words; see compare --help");
                    return ExitCode::from(2);
                }
            },
        }
    }
    if named.is_empty() {
        named = TOPICS
            .iter()
            .filter(|topic| topic.quick || extent == Extent::Whole)
            .collect();
    }
    let start = Instant::now();
    let counts: Vec<Option<u64>> = named.iter().map(|topic| run(topic, extent)).collect();
    let seconds = start.elapsed().as_secs();
    match counts.iter().copied().sum::<Option<u64>>() {
        Some(all) => {
            println!("in all {all} comparisons, nothing differed ({seconds} s)");
            ExitCode::SUCCESS
        }
        None => ExitCode::FAILURE,
    }
}

fn help() -> ExitCode {
    println!("{HELP}");
    TOPICS.iter().for_each(|topic| println!("  {}", topic.name));
    ExitCode::SUCCESS
}

#[cfg(feature = "original")]
fn write_vectors() -> ExitCode {
    match compare::topics::stored::write() {
        Ok(path) => println!("written: {}", path.display()),
        Err(e) => {
            eprintln!("compare: the stored answers cannot be written: {e}");
            return ExitCode::from(2);
        }
    }
    ExitCode::SUCCESS
}

/// Prints a topic's line, and answers how many comparisons it made if nothing differed.
fn run(topic: &Topic, extent: Extent) -> Option<u64> {
    let (name, start) = (topic.name, Instant::now());
    let mut tally = Tally::default();
    match (topic.run)(extent, &mut tally) {
        Ok(summary) => {
            let (compared, seconds) = (tally.compared, start.elapsed().as_secs());
            println!("{name}: {summary}; {compared} comparisons, nothing differed ({seconds} s)");
            Some(compared)
        }
        Err(difference) => {
            println!("{name}: DIFFERS: {difference}");
            None
        }
    }
}
