//! One result for each of several files: to standard output, or to a folder.

use super::Failure;
use crate::arguments::Arguments;
use crate::files;
use crate::options::{FORCE, KEEP_GOING, OUTPUT};
use crate::report::Report;
use std::collections::HashSet;
use std::ffi::{OsStr, OsString};
use std::fs;
use std::io::{self, BufRead, BufWriter, Write};
use std::path::{Path, PathBuf};

/// What went wrong while a file was read, or while its result was written.
pub enum Trouble {
    Read(io::Error),
    Write(io::Error),
}

/// What is in a file, and what to call it.
pub struct Input {
    pub reader: Box<dyn BufRead>,
    pub name: String,
}

pub struct Batch {
    files: Vec<OsString>,
    output: Option<PathBuf>,
    ending: &'static str,
    force: bool,
    keep_going: bool,
}

impl Batch {
    /// The files that were typed. Results have this ending; in folders files of the
    /// others are looked for.
    pub fn read(
        arguments: &mut Arguments,
        endings: &[&str],
        ending: &'static str,
    ) -> Result<Batch, Failure> {
        let mut files = arguments.rest();
        let output = arguments.value(&OUTPUT).map(PathBuf::from);
        if output.is_some() {
            files = files::meant(files, endings)?;
        }
        if files.is_empty() {
            files.push("-".into());
        }
        if files.len() > 1 && output.is_none() {
            return Err(Failure::usage(
                "several files need --output DIR, the folder for their results".to_string(),
            ));
        }
        let batch = Batch {
            files,
            output,
            ending,
            force: arguments.has(&FORCE),
            keep_going: arguments.has(&KEEP_GOING),
        };
        batch.once_each()?;
        Ok(batch)
    }

    /// No two results may be one file.
    fn once_each(&self) -> Result<(), Failure> {
        let Some(output) = &self.output else {
            return Ok(());
        };
        let mut targets = HashSet::new();
        for file in &self.files {
            let target = files::target(output, file, self.ending);
            if !targets.insert(target.clone()) {
                return Err(Failure::usage(format!(
                    "two files would be written to {}",
                    target.display()
                )));
            }
        }
        fs::create_dir_all(output)
            .map_err(|error| Failure::file(format!("{}: {error}", output.display())))
    }

    pub fn is_many(&self) -> bool {
        self.files.len() > 1
    }

    pub fn keeps_going(&self) -> bool {
        self.keep_going
    }

    /// Converts each file. `convert` answers whether nothing was refused.
    pub fn run(
        self,
        report: &mut Report,
        mut convert: impl FnMut(&mut Report, Input, &mut dyn Write) -> Result<bool, Trouble>,
    ) -> Result<(), Failure> {
        for (k, file) in self.files.iter().enumerate() {
            let went = match &self.output {
                Some(folder) => self.to_folder(folder, file, report, &mut convert),
                None => {
                    let mut out = BufWriter::new(io::stdout().lock());
                    let went = input(file).and_then(|input| convert(report, input, &mut out));
                    // what was written before a failure is good, and goes out all the same
                    out.flush().map_err(Trouble::Write).and(went)
                }
            };
            let good = match went {
                Ok(good) => good,
                Err(Trouble::Write(error)) => return files::written_failed(error),
                Err(Trouble::Read(error)) => {
                    report.unread(format!("{}: {error}", files::name(file)));
                    false
                }
            };
            if !good && !self.keep_going {
                report.left_out(self.files.len() - k - 1);
                break;
            }
        }
        Ok(())
    }

    fn to_folder(
        &self,
        folder: &Path,
        file: &OsStr,
        report: &mut Report,
        convert: &mut impl FnMut(&mut Report, Input, &mut dyn Write) -> Result<bool, Trouble>,
    ) -> Result<bool, Trouble> {
        let mut result = Vec::new();
        let good = convert(report, input(file)?, &mut result)?;
        if !result.is_empty() {
            let target = files::target(folder, file, self.ending);
            if let Err(error) = files::write_file(&target, &result, self.force) {
                report.unread(format!("{}: {error}", target.display()));
                return Ok(false);
            }
        }
        Ok(good)
    }
}

fn input(file: &OsStr) -> Result<Input, Trouble> {
    let reader = files::open(file).map_err(Trouble::Read)?;
    Ok(Input {
        reader,
        name: files::name(file),
    })
}
