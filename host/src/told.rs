//! How a command ends: what goes to standard output, what to standard error, and the status.

use std::io::{self, Write};
use std::path::Path;
use std::process::ExitCode;

use bicycle::Refused;

/// Why a command has no full answer.
pub enum Stop {
    /// The library refused or rejected something: lines for standard output, and one sentence.
    Refused { lines: String, sentence: String },
    /// The words are none that the command takes.
    Usage {
        sentence: String,
        usage: &'static str,
    },
    /// A file cannot be read or written.
    File(String),
}

/// All that a command prints on standard output, or why there is none.
pub type Told = Result<String, Stop>;

impl Stop {
    /// A refusal with a sentence that knows more than its number.
    pub fn refused(refused: Refused, sentence: impl Into<String>) -> Stop {
        let lines = format!("refused={}\n", refused.number);
        Stop::Refused {
            lines,
            sentence: sentence.into(),
        }
    }

    pub fn unreadable(path: &Path, e: &io::Error) -> Stop {
        Stop::File(format!("{path:?} cannot be read: {e}."))
    }

    pub fn unwritable(path: &Path, e: &io::Error) -> Stop {
        Stop::File(format!("{path:?} cannot be written: {e}."))
    }
}

impl From<Refused> for Stop {
    fn from(refused: Refused) -> Self {
        Stop::refused(refused, refused.sentence())
    }
}

/// One sentence on standard error. That nobody may be there to read it is no reason to stop.
pub fn say(sentence: &str) {
    let _ = writeln!(io::stderr(), "bicycle: {sentence}");
}

pub fn tell(told: Told) -> ExitCode {
    let (lines, sentence, status) = match told {
        Ok(lines) => (lines, None, 0),
        Err(Stop::Refused { lines, sentence }) => (lines, Some(sentence), 1),
        Err(Stop::Usage { sentence, usage }) => (String::new(), Some(sentence + "\n" + usage), 2),
        Err(Stop::File(sentence)) => (String::new(), Some(sentence), 2),
    };
    if let Err(e) = print(&lines) {
        say(&format!(
            "The answer cannot be written to standard output: {e}."
        ));
        return ExitCode::from(2);
    }
    if let Some(sentence) = sentence {
        say(&sentence);
    }
    ExitCode::from(status)
}

fn print(lines: &str) -> io::Result<()> {
    let mut out = io::stdout().lock();
    out.write_all(lines.as_bytes())?;
    out.flush()
}
