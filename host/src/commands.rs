//! The five commands, each a function from its words to what it tells.

use std::ffi::OsString;
use std::fs::File;
use std::io;
use std::path::Path;

use bicycle::pair::digits;
use bicycle::{Checked, LIST_INPUT, LISTED_ROTATIONS, Pair, Plan, Refused, written};

use crate::files::{self, Output};
use crate::help::{self, FORMS};
use crate::letters;
use crate::tables::{self, Table};
use crate::told::{Stop, Told};
use crate::words::{Words, asks_help};
use crate::working::working;

/// Runs the command that the first word names with the words behind it.
pub fn run(mut given: impl Iterator<Item = OsString>) -> Told {
    let usage = |sentence: String| Stop::Usage {
        sentence,
        usage: help::usage(help::ALL),
    };
    let Some(name) = given.next() else {
        return Err(usage("A command is missing.".into()));
    };
    if asks_help(&name) {
        return Ok(help::printed(help::ALL));
    }
    let Some(form) = FORMS.iter().find(|form| name == form.name) else {
        return Err(usage(format!("There is no command {name:?}.")));
    };
    match Words::read(form, given)? {
        Some(words) => (form.run)(&words),
        None => Ok(help::printed(form.page)),
    }
}

/// Builds the pair's table, and writes it, and the queue where one is wanted.
pub fn build(words: &Words) -> Told {
    let pair = words.pair()?;
    let table = Path::new(words.argument());
    let queue = words.value("--queue").map(Path::new);
    if queue.is_some_and(|queue| files::resolved(queue) == files::resolved(table)) {
        return Err(words.usage("TABLE and --queue name the same file."));
    }
    // that a file cannot be written is told before the work
    for file in [Some(table), queue].into_iter().flatten() {
        Output::probe(file).map_err(|e| Stop::unwritable(file, &e))?;
    }
    let fresh = tables::build(&pair)?;
    write(table, &fresh.table)?;
    if let Some(queue) = queue {
        write(queue, &fresh.queue)?;
    }
    Ok(format!(
        "entries={}\ndepth={}\n",
        fresh.built.entries, fresh.built.depth
    ))
}

fn write(file: &Path, bytes: &[u8]) -> Result<(), Stop> {
    Output::create(file)
        .and_then(|output| output.write(bytes))
        .map_err(|e| Stop::unwritable(file, &e))
}

/// Says whether a file is a table of the pair.
pub fn check(words: &Words) -> Told {
    let pair = words.pair()?;
    let table = Table::read(Path::new(words.argument()))?;
    let checked = working("checking the table", || {
        bicycle::check(&table.bytes, &pair.mx, &pair.my)
    })
    .map_err(|r| table.refused(&pair, r))?;
    match checked {
        Checked::Accepted => Ok("accepted\n".into()),
        Checked::Rejected(index) => {
            let text = written(|out| bicycle::display(index, out))?;
            Err(Stop::Refused {
                lines: format!("rejected={index}\n"),
                sentence: format!(
                    "The entry of {text}, qubit 11 first, is the first that breaks its rule."
                ),
            })
        }
    }
}

/// The plan of twelve letters, as a listing.
pub fn lookup(words: &Words) -> Told {
    let pair = words.pair()?;
    let p = letters::read(words.argument())?;
    let table = match words.value("--table") {
        Some(file) => Table::read(Path::new(file))?,
        None => Table::kept(&pair)?,
    };
    let plan_of = if words.flag("--pivot-free") {
        bicycle::min_data_plan
    } else {
        bicycle::implementation_plan
    };
    let plan = plan_of(&table.bytes, &pair.mx, &pair.my, p).map_err(|r| table.refused(&pair, r))?;
    listing(&pair, &plan)
}

/// Writes the plan on paper, and lists that.
fn listing(pair: &Pair, plan: &Plan) -> Told {
    let mut paper = stated(pair);
    paper += &format!("base={}\n", plan.native);
    for n in &plan.rotations {
        paper += &format!("rotation={n}\n");
    }
    let count = plan.rotations.len();
    listed(paper.as_bytes()).map_err(|stop| match stop {
        Stop::Refused { lines, .. } if count > LISTED_ROTATIONS => {
            let most = LISTED_ROTATIONS;
            let sentence = format!("The plan has {count} rotations, and a listing {most} at most.");
            Stop::Refused { lines, sentence }
        }
        stop => stop,
    })
}

/// The lines of a plan on paper that state its matrices.
fn stated(pair: &Pair) -> String {
    format!("mx={}\nmy={}\n", digits(&pair.mx), digits(&pair.my))
}

/// All that the library lists for a plan on paper; its line `refused=N` is a refusal.
fn listed(paper: &[u8]) -> Told {
    let lines = written(|out| bicycle::list(paper, out))?;
    let number = lines.trim_end().strip_prefix("refused=");
    match number.map(str::parse) {
        Some(Ok(number)) => Err(Refused { number, needed: 0 }.into()),
        _ => Ok(lines),
    }
}

/// The string of a native, and its instructions: as a base, and as a rotation if it can be one.
pub fn native(words: &Words) -> Told {
    let pair = words.pair()?;
    let n = number(words)?;
    let string = bicycle::measures(&pair.mx, &pair.my, n)?;
    let text = written(|out| bicycle::display(string, out))?;
    let base = written(|out| bicycle::native_instructions(n, out))?;
    let lines = format!("measures={text}\nbase={n}\nexpand={base}\n");
    match written(|out| bicycle::rotation_instructions(&pair.mx, &pair.my, n, out)) {
        Ok(rotation) => Ok(format!("{lines}rotation={n}\nexpand={rotation}\n")),
        Err(r) => Err(Stop::Refused {
            lines: format!("{lines}refused={}\n", r.number),
            sentence: r.sentence().into(),
        }),
    }
}

/// A number of any size: the library refuses those that are too great.
fn number(words: &Words) -> Result<u32, Stop> {
    let digits = words.argument().to_str().unwrap_or_default();
    if digits.is_empty() || !digits.bytes().all(|b| b.is_ascii_digit()) {
        return Err(words.usage(format!(
            "N is a number, and {:?} is none.",
            words.argument()
        )));
    }
    Ok(digits.parse().unwrap_or(u32::MAX))
}

/// Lists a plan on paper, from a file or from standard input. It states its matrices: where the
/// words choose a pair, it must be that.
pub fn plan(words: &Words) -> Told {
    let chosen = words.chosen()?;
    let paper = match words.optional() {
        Some(file) => front(Path::new(file))?,
        None => files::read_front(&mut io::stdin().lock(), LIST_INPUT)
            .map_err(|e| Stop::File(format!("Standard input cannot be read: {e}.")))?,
    };
    let lines = listed(&paper)?;
    match chosen {
        Some(pair) if !paper.starts_with(stated(&pair).as_bytes()) => {
            Err(words.usage("The plan states other matrices than these words."))
        }
        _ => Ok(lines),
    }
}

fn front(file: &Path) -> Result<Vec<u8>, Stop> {
    File::open(file)
        .and_then(|mut input| files::read_front(&mut input, LIST_INPUT))
        .map_err(|e| Stop::unreadable(file, &e))
}
