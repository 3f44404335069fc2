//! Files, read and written whole.

use std::ffi::OsString;
use std::fs::{self, File};
use std::io::{self, Read, Write};
use std::path::{Path, PathBuf};
use std::time::{SystemTime, UNIX_EPOCH};

use bicycle::TABLE_LENGTH;

/// The bytes of a table's file. Of a longer file only so many are read that the library sees it.
pub fn read_table(path: &Path) -> io::Result<Vec<u8>> {
    read_front(&mut File::open(path)?, TABLE_LENGTH + 1)
}

/// The first bytes of an input, `most` at most.
pub fn read_front(input: &mut dyn Read, most: usize) -> io::Result<Vec<u8>> {
    let mut bytes = Vec::new();
    input.take(most as u64).read_to_end(&mut bytes)?;
    Ok(bytes)
}

/// How long a file is, for a sentence; of what is no regular file, no more is known than was read.
pub fn length(path: &Path, read: &[u8]) -> String {
    match fs::metadata(path) {
        Ok(found) if found.is_file() => found.len().to_string(),
        _ if read.len() > TABLE_LENGTH => "more".into(),
        _ => read.len().to_string(),
    }
}

/// A file that is to be written, under a temporary name beside it until it is whole.
///
/// What is no regular file, as a device or a pipe, has no such name and is written as it is.
pub struct Output {
    file: File,
    path: PathBuf,
    temporary: Option<PathBuf>,
}

impl Output {
    /// Whether the file could be written, as far as can be told before there is anything to write.
    pub fn probe(path: &Path) -> io::Result<()> {
        // to open a pipe and leave it would end its reader
        if fs::metadata(path).is_ok_and(|found| !found.is_file() && !found.is_dir()) {
            return Ok(());
        }
        Output::create(path).map(drop)
    }

    pub fn create(path: &Path) -> io::Result<Output> {
        let path = resolved(path);
        if fs::metadata(&path).is_ok_and(|found| !found.is_file()) {
            let file = File::options().write(true).open(&path)?;
            return Ok(Output {
                file,
                path,
                temporary: None,
            });
        }
        let temporary = temporary_name(&path)?;
        let file = File::options()
            .write(true)
            .create_new(true)
            .open(&temporary)?;
        Ok(Output {
            file,
            path,
            temporary: Some(temporary),
        })
    }

    /// Writes all bytes, and gives the file its name once they are on the disk.
    pub fn write(mut self, bytes: &[u8]) -> io::Result<()> {
        self.file.write_all(bytes)?;
        let Some(temporary) = &self.temporary else {
            return self.file.flush();
        };
        self.file.sync_all()?;
        fs::rename(temporary, &self.path)?;
        self.temporary = None;
        File::open(folder(&self.path))?.sync_all()
    }
}

impl Drop for Output {
    fn drop(&mut self) {
        if let Some(temporary) = &self.temporary {
            let _ = fs::remove_file(temporary);
        }
    }
}

/// A name beside the path that no other run takes: the process and the time are in it.
fn temporary_name(path: &Path) -> io::Result<PathBuf> {
    let Some(name) = path.file_name() else {
        return Err(io::ErrorKind::NotFound.into());
    };
    let time = SystemTime::now()
        .duration_since(UNIX_EPOCH)
        .unwrap_or_default()
        .as_nanos();
    let mut temporary = OsString::from(".");
    temporary.push(name);
    temporary.push(format!(".{}-{time}.tmp", std::process::id()));
    Ok(path.with_file_name(temporary))
}

/// The path of what a link leads to, or of a file that is not there yet, in full.
pub fn resolved(path: &Path) -> PathBuf {
    path.canonicalize().unwrap_or_else(|_| {
        let folder = folder(path).canonicalize();
        match (folder, path.file_name()) {
            (Ok(folder), Some(name)) => folder.join(name),
            _ => path.into(),
        }
    })
}

fn folder(path: &Path) -> &Path {
    match path.parent() {
        Some(folder) if !folder.as_os_str().is_empty() => folder,
        _ => Path::new("."),
    }
}
