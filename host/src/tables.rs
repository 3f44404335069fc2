//! Tables: built, read from a file, or kept in the user's cache folder and built when first needed.

use std::env;
use std::ffi::OsString;
use std::fs::DirBuilder;
use std::io;
use std::os::unix::fs::DirBuilderExt;
use std::path::{Path, PathBuf};

use bicycle::pair::Matrix;
use bicycle::{Built, Code, Pair, Refused, TABLE_LENGTH};

use crate::files::{self, Output};
use crate::told::{Stop, say};
use crate::working::working;

/// A table and a queue, and what their build told.
pub struct Fresh {
    pub table: Vec<u8>,
    pub queue: Vec<u8>,
    pub built: Built,
}

pub fn build(pair: &Pair) -> Result<Fresh, Refused> {
    let (mut table, mut queue) = (vec![0; TABLE_LENGTH], vec![0; TABLE_LENGTH]);
    let built = working(&format!("building the table of {}", title(pair)), || {
        bicycle::build(&mut table, &mut queue, &pair.mx, &pair.my)
    })?;
    Ok(Fresh {
        table,
        queue,
        built,
    })
}

/// The bytes of a table, and where they are from.
pub struct Table {
    pub bytes: Vec<u8>,
    source: Source,
}

enum Source {
    /// A file that the user named.
    Named(PathBuf),
    /// A file of the cache folder.
    Kept(PathBuf),
    Build,
}

impl Table {
    /// The table of a file, of whatever length.
    pub fn read(file: &Path) -> Result<Table, Stop> {
        let bytes = files::read_table(file).map_err(|e| Stop::unreadable(file, &e))?;
        Ok(Table::from(Source::Named(file.into()), bytes))
    }

    /// The table of a pair: the kept one, or a new one, which is then kept.
    pub fn kept(pair: &Pair) -> Result<Table, Stop> {
        let Some(folder) = cache_folder(env::var_os("XDG_CACHE_HOME"), env::var_os("HOME")) else {
            say("The table is not kept: neither XDG_CACHE_HOME nor HOME is an absolute path.");
            return Ok(Table::from(Source::Build, build(pair)?.table));
        };
        let file = folder.join(file_name(pair));
        if let Some(bytes) = read_kept(&file) {
            return Ok(Table::from(Source::Kept(file), bytes));
        }
        let bytes = build(pair)?.table;
        if let Err(e) = keep(&folder, &file, &bytes) {
            say(&format!(
                "The table is not kept: {file:?} cannot be written: {e}."
            ));
        }
        Ok(Table::from(Source::Build, bytes))
    }

    fn from(source: Source, bytes: Vec<u8>) -> Table {
        Table { bytes, source }
    }

    /// A refusal of a call on this table, with a sentence that knows where the table is from.
    pub fn refused(&self, pair: &Pair, refused: Refused) -> Stop {
        let sentence = match &self.source {
            Source::Named(file) if refused.number == Refused::TABLE_LENGTH => {
                let length = files::length(file, &self.bytes);
                format!("A table has {TABLE_LENGTH} bytes, and {file:?} has {length}.")
            }
            Source::Kept(file) if shows_damage(pair, refused) => {
                format!("The kept table is damaged: remove {file:?}, and it is built anew.")
            }
            _ => refused.sentence().into(),
        };
        Stop::refused(refused, sentence)
    }
}

/// A built table has no bad entry, and those of the two codes have a plan for every string.
fn shows_damage(pair: &Pair, refused: Refused) -> bool {
    match refused.number {
        Refused::BAD_ENTRY => true,
        Refused::NO_ENTRY => code_of(pair).is_some(),
        _ => false,
    }
}

/// The table that a file of the cache folder holds; none where there is no whole one.
fn read_kept(file: &Path) -> Option<Vec<u8>> {
    let trouble = match files::read_table(file) {
        Ok(bytes) if bytes.len() == TABLE_LENGTH => return Some(bytes),
        Ok(bytes) => format!("has {} bytes", files::length(file, &bytes)),
        Err(e) if is_absent(&e) => return None,
        Err(e) => format!("cannot be read: {e}"),
    };
    say(&format!("The table is built anew: {file:?} {trouble}."));
    None
}

fn is_absent(e: &io::Error) -> bool {
    matches!(
        e.kind(),
        io::ErrorKind::NotFound | io::ErrorKind::NotADirectory
    )
}

fn keep(folder: &Path, file: &Path, bytes: &[u8]) -> io::Result<()> {
    // the mode that the XDG rules ask for
    DirBuilder::new()
        .recursive(true)
        .mode(0o700)
        .create(folder)?;
    Output::create(file)?.write(bytes)
}

/// The folder `bicycle` of the user's cache folder. By the XDG rules a relative path is none.
fn cache_folder(xdg: Option<OsString>, home: Option<OsString>) -> Option<PathBuf> {
    let absolute = |path: Option<OsString>| path.map(PathBuf::from).filter(|p| p.is_absolute());
    let caches = absolute(xdg).or_else(|| Some(absolute(home)?.join(".cache")))?;
    Some(caches.join("bicycle"))
}

fn code_of(pair: &Pair) -> Option<Code> {
    Code::ALL.into_iter().find(|code| code.pair() == *pair)
}

fn title(pair: &Pair) -> &'static str {
    code_of(pair).map_or("the two matrices", Code::name)
}

/// The code's name, or both matrices as hexadecimal numbers.
fn file_name(pair: &Pair) -> String {
    match code_of(pair) {
        Some(code) => format!("{code}.table"),
        None => format!("mx-{:09x}-my-{:09x}.table", bits(&pair.mx), bits(&pair.my)),
    }
}

/// A matrix of zeros and ones as a number, its first digit highest.
fn bits(matrix: &Matrix) -> u64 {
    matrix
        .iter()
        .fold(0, |bits, &digit| 2 * bits + u64::from(digit))
}

#[cfg(test)]
mod tests {
    use super::*;

    #[test]
    fn cache_folder_by_the_xdg_rules() {
        let folder = |xdg: &str, home: &str| {
            let given = |path: &str| (path != "unset").then(|| OsString::from(path));
            cache_folder(given(xdg), given(home)).map(|f| f.to_str().unwrap().to_owned())
        };
        assert_eq!(folder("/a", "/h").as_deref(), Some("/a/bicycle"));
        assert_eq!(folder("unset", "/h").as_deref(), Some("/h/.cache/bicycle"));
        assert_eq!(folder("", "/h").as_deref(), Some("/h/.cache/bicycle"));
        assert_eq!(folder("a", "/h").as_deref(), Some("/h/.cache/bicycle"));
        assert_eq!(folder("/a", "unset").as_deref(), Some("/a/bicycle"));
        assert_eq!(folder("unset", "unset"), None);
        assert_eq!(folder("a", "h"), None);
    }

    #[test]
    fn each_pair_has_a_file_of_its_own() {
        let mut pair = Code::Gross.pair();
        assert_eq!(file_name(&pair), "gross.table");
        assert_eq!(file_name(&Code::TwoGross.pair()), "two-gross.table");
        let mut names = vec![];
        for i in 0..36 {
            pair.mx[i] ^= 1;
            names.push(file_name(&pair));
            pair.mx[i] ^= 1;
            pair.my[i] ^= 1;
            names.push(file_name(&pair));
            pair.my[i] ^= 1;
        }
        names.sort();
        names.dedup();
        assert_eq!(names.len(), 72);
    }
}
