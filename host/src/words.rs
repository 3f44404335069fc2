//! The words of a command: its arguments and options, read by the form that it lays down.

use std::ffi::{OsStr, OsString};
use std::os::unix::ffi::OsStrExt;

use bicycle::pair::{Matrix, matrix};
use bicycle::{Code, Pair};

use crate::help;
use crate::told::{Stop, Told};

/// What a command takes.
pub struct Form {
    pub name: &'static str,
    /// The name of its only argument.
    pub argument: &'static str,
    /// Whether that may be left out.
    pub optional: bool,
    /// Its options with a value, beside those that choose a pair of matrices.
    pub options: &'static [&'static str],
    /// Options without one.
    pub flags: &'static [&'static str],
    /// What `--help` prints, the usage first.
    pub page: &'static str,
    pub run: fn(&Words) -> Told,
}

const CODE: &str = "--code";
const MX: &str = "--mx";
const MY: &str = "--my";
/// The options that choose a pair of matrices.
const PAIR: &[&str] = &[CODE, MX, MY];

/// What a command was given.
pub struct Words {
    form: &'static Form,
    arguments: Vec<OsString>,
    options: Vec<(&'static str, OsString)>,
    flags: Vec<&'static str>,
}

/// An option's name, and its value where one stands in the same word, behind a `=`.
fn parted(word: &OsStr) -> (&OsStr, Option<&OsStr>) {
    let bytes = word.as_bytes();
    match bytes.iter().position(|&b| b == b'=') {
        Some(i) => (
            OsStr::from_bytes(&bytes[..i]),
            Some(OsStr::from_bytes(&bytes[i + 1..])),
        ),
        None => (word, None),
    }
}

/// Whether a word asks for help.
pub fn asks_help(word: &OsStr) -> bool {
    word == "--help" || word == "-h"
}

impl Words {
    /// Reads the words; none if they ask for help.
    pub fn read(
        form: &'static Form,
        mut given: impl Iterator<Item = OsString>,
    ) -> Result<Option<Words>, Stop> {
        let mut words = Words {
            form,
            arguments: vec![],
            options: vec![],
            flags: vec![],
        };
        let mut only_arguments = false;
        while let Some(word) = given.next() {
            if only_arguments || !word.as_bytes().starts_with(b"-") {
                words.arguments.push(word);
            } else if word == "--" {
                only_arguments = true;
            } else if asks_help(&word) {
                return Ok(None);
            } else {
                words.option(&word, &mut given)?;
            }
        }
        words.counted()?;
        Ok(Some(words))
    }

    /// Takes one option, and its value: behind a `=` in the same word, or the next word.
    fn option(
        &mut self,
        word: &OsStr,
        rest: &mut impl Iterator<Item = OsString>,
    ) -> Result<(), Stop> {
        let (name, value) = parted(word);
        let among = |names: &'static [&'static str]| names.iter().copied().find(|&n| name == n);
        if let (Some(flag), None) = (among(self.form.flags), value) {
            self.flags.push(flag);
            return Ok(());
        }
        let Some(option) = among(self.form.options).or(among(PAIR)) else {
            return Err(self.usage(format!("`{}` has no option {word:?}.", self.form.name)));
        };
        if self.value(option).is_some() {
            return Err(self.usage(format!("{option} is given twice.")));
        }
        match value.map(OsStr::to_os_string).or_else(|| rest.next()) {
            Some(value) => self.options.push((option, value)),
            None => return Err(self.usage(format!("{option} needs a value."))),
        }
        Ok(())
    }

    fn counted(&self) -> Result<(), Stop> {
        if let Some(word) = self.arguments.get(1) {
            return Err(self.usage(format!("{word:?} is one word too many.")));
        }
        if self.arguments.is_empty() && !self.form.optional {
            return Err(self.usage(format!("{} is missing.", self.form.argument)));
        }
        Ok(())
    }

    /// The words are none that the command takes.
    pub fn usage(&self, sentence: impl Into<String>) -> Stop {
        Stop::Usage {
            sentence: sentence.into(),
            usage: help::usage(self.form.page),
        }
    }

    /// The argument of a command that must have one.
    pub fn argument(&self) -> &OsStr {
        &self.arguments[0]
    }

    /// The argument of a command that may have one.
    pub fn optional(&self) -> Option<&OsStr> {
        self.arguments.first().map(OsString::as_os_str)
    }

    pub fn value(&self, option: &str) -> Option<&OsStr> {
        self.options
            .iter()
            .find(|(name, _)| *name == option)
            .map(|(_, value)| value.as_os_str())
    }

    pub fn flag(&self, flag: &str) -> bool {
        self.flags.contains(&flag)
    }

    /// The pair that the words choose: gross, where they choose none.
    pub fn pair(&self) -> Result<Pair, Stop> {
        Ok(self.chosen()?.unwrap_or_else(|| Code::Gross.pair()))
    }

    /// The pair that `--code`, or `--mx` and `--my`, choose.
    pub fn chosen(&self) -> Result<Option<Pair>, Stop> {
        match (self.value(CODE), self.value(MX), self.value(MY)) {
            (None, None, None) => Ok(None),
            (Some(name), None, None) => self.code(name).map(Some),
            (None, Some(mx), Some(my)) => Ok(Some(Pair {
                mx: self.matrix(MX, mx)?,
                my: self.matrix(MY, my)?,
            })),
            (None, _, _) => Err(self.usage("--mx and --my are given together.")),
            (Some(_), _, _) => Err(self.usage("Give --code, or --mx and --my, but not both.")),
        }
    }

    fn code(&self, name: &OsStr) -> Result<Pair, Stop> {
        let code = name.to_str().and_then(|name| name.parse::<Code>().ok());
        let code = code.ok_or_else(|| {
            self.usage(format!(
                "The codes are gross and two-gross; {name:?} is neither."
            ))
        })?;
        Ok(code.pair())
    }

    fn matrix(&self, option: &str, digits: &OsStr) -> Result<Matrix, Stop> {
        matrix(digits.as_bytes())
            .map_err(|_| self.usage(format!("{option} takes 36 digits, not {digits:?}.")))
    }
}
