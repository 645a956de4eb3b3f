//! Which files are meant, reading them, and writing results.

use crate::commands::Failure;
use std::ffi::{OsStr, OsString};
use std::fs::{self, File, OpenOptions};
use std::io::{self, BufRead, BufReader, ErrorKind, Write};
use std::path::{Path, PathBuf};

const STANDARD_INPUT: &str = "standard input";

/// Bytes of a file that are read at a time.
const PIECE: usize = 65_536;

/// What to call a file. Standard input where there is none or it is `-`.
pub fn name(file: &OsStr) -> String {
    match file == "-" {
        true => STANDARD_INPUT.to_string(),
        false => file.to_string_lossy().into_owned(),
    }
}

/// Opens a file to be read piece by piece.
pub fn open(file: &OsStr) -> io::Result<Box<dyn BufRead>> {
    if file == "-" {
        return Ok(Box::new(io::stdin().lock()));
    }
    let file = File::open(file)?;
    if file.metadata()?.is_dir() {
        return Err(io::Error::other("is a folder"));
    }
    Ok(Box::new(BufReader::with_capacity(PIECE, file)))
}

/// The files that are meant: each word, or of a folder those with one of these endings,
/// by name.
pub fn meant(words: Vec<OsString>, endings: &[&str]) -> Result<Vec<OsString>, Failure> {
    let mut files = Vec::new();
    for word in words {
        match Path::new(&word).is_dir() {
            true => files.extend(folder(&word, endings)?),
            false => files.push(word),
        }
    }
    Ok(files)
}

fn folder(path: &OsStr, endings: &[&str]) -> Result<Vec<OsString>, Failure> {
    let failed = |error: io::Error| Failure::file(format!("{}: {error}", name(path)));
    let mut files = Vec::new();
    for entry in fs::read_dir(path).map_err(failed)? {
        let file = entry.map_err(failed)?.path();
        let ending = file
            .extension()
            .map(|ending| ending.to_string_lossy().to_ascii_lowercase());
        if ending.is_some_and(|ending| endings.contains(&&*ending)) && file.is_file() {
            files.push(file.into_os_string());
        }
    }
    files.sort();
    match files.is_empty() {
        true => Err(Failure::file(format!(
            "{}: no file here ends with .{}",
            name(path),
            endings.join(" or .")
        ))),
        false => Ok(files),
    }
}

/// Where the result of a file goes: its name with another ending, in that folder.
pub fn target(folder: &Path, file: &OsStr, ending: &str) -> PathBuf {
    let stem = Path::new(file).file_stem().filter(|_| file != "-");
    let mut name = stem.unwrap_or(OsStr::new("standard-input")).to_os_string();
    name.push(format!(".{ending}"));
    folder.join(name)
}

/// Writes a file; one that is there already only if that is wanted.
pub fn write_file(path: &Path, bytes: &[u8], force: bool) -> io::Result<()> {
    let mut how = OpenOptions::new();
    how.write(true)
        .create(true)
        .truncate(true)
        .create_new(!force);
    let mut file = how.open(path).map_err(|error| match error.kind() {
        ErrorKind::AlreadyExists => io::Error::other("is there already; --force writes over it"),
        _ => error,
    })?;
    file.write_all(bytes)
}

/// Writes the bytes and a line end to standard output.
pub fn write_line(bytes: &[u8]) -> Result<(), Failure> {
    let mut out = io::stdout().lock();
    let written = out.write_all(bytes).and_then(|()| out.write_all(b"\n"));
    written.and_then(|()| out.flush()).or_else(written_failed)
}

/// A reader that has gone away is no fault to speak of.
pub fn written_failed(error: io::Error) -> Result<(), Failure> {
    match error.kind() {
        ErrorKind::BrokenPipe => Ok(()),
        _ => Err(Failure::file(format!("standard output: {error}"))),
    }
}
