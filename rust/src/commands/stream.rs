//! `thymebarrel stream`: the cards of files, one line for each.

use super::place::{is_outside, Place};
use super::{Command, Failure};
use crate::arguments::Arguments;
use crate::files;
use crate::options::{self, Stem, KEEP_GOING, NUMBER, QUIET, SKIP_BOM, STEM, WITHOUT};
use crate::report::{Again, Report};
use crate::skip_bom::skip_bom;
use crate::without::{Notes, Without};
use std::cell::RefCell;
use std::ffi::OsStr;
use std::io::{self, BufRead, BufWriter, Write};
use std::rc::Rc;
use thymebarrel::{member, Answer, Cards, Refusal};

pub const COMMAND: Command = Command {
    name: "stream",
    words: "[FILE..]",
    help: "many cards, a line of JSON for each",
    about: "Converts every card of the files, in memory of a fixed size, to a line of JSON each: {\"number\":1,\"uid\":\"reg-1\",\"file\":\"..\",\"offset\":0,\"length\":66,\"card\":{..}}, \
            or {\"number\":2,\"refused\":8,\"place\":4,\"file\":\"..\",\"offset\":0,\"length\":51}. The cards of all files count on, so that no two uids that are made are the same. \
            card reads these lines.",
    options: &[&STEM, &NUMBER, &WITHOUT, &SKIP_BOM, &KEEP_GOING, &QUIET],
    run,
};

fn run(mut arguments: Arguments) -> Result<(), Failure> {
    let mut files = arguments.rest();
    if files.is_empty() {
        files.push("-".into());
    }
    let mut run = Run {
        stem: options::stem(&arguments)?,
        without: options::without(&arguments)?,
        skip_bom: arguments.has(&SKIP_BOM),
        keep_going: arguments.has(&KEEP_GOING),
        last: options::number(&arguments)? - 1,
        out: BufWriter::new(io::stdout().lock()),
        report: Report::new(arguments.has(&QUIET), Again::Count, true),
    };
    let mut done = Ok(());
    for (k, file) in files.iter().enumerate() {
        done = run.file(file);
        if done.is_err() {
            run.report.left_out(files.len() - k - 1);
            break;
        }
    }
    // what was written before a failure is good, and goes out all the same
    let flushed = run.out.flush().map_err(Stop::Write);
    match flushed.and(done) {
        Err(Stop::Write(error)) => files::written_failed(error),
        _ => run.report.end(Some(&run.stem)),
    }
}

/// Why no more is read: something was refused or could not be read, and is told; or
/// the lines cannot be written.
enum Stop {
    Told,
    Write(io::Error),
}

struct Run<W> {
    stem: Stem,
    without: Vec<String>,
    skip_bom: bool,
    keep_going: bool,
    /// The number of the last card; files go on counting.
    last: usize,
    out: W,
    report: Report,
}

/// A file as its cards are read from it: what was taken out of it on the way.
struct Opened {
    reader: Box<dyn BufRead>,
    name: String,
    skipped: u64,
    notes: Rc<RefCell<Notes>>,
}

impl<W: Write> Run<W> {
    fn open(&self, file: &OsStr) -> io::Result<Opened> {
        let (mut reader, skipped) = skip_bom(self.skip_bom, files::open(file)?)?;
        let mut notes = Rc::default();
        if !self.without.is_empty() {
            let (rest, noted) = Without::new(reader, self.without.clone());
            (reader, notes) = (Box::new(rest), noted);
        }
        Ok(Opened {
            reader,
            name: files::name(file),
            skipped,
            notes,
        })
    }

    fn file(&mut self, file: &OsStr) -> Result<(), Stop> {
        let Opened {
            reader,
            name,
            skipped,
            notes,
        } = match self.open(file) {
            Ok(opened) => opened,
            Err(error) => return self.unread(&files::name(file), &error),
        };
        let mut cards = Cards::after(self.last, &self.stem.bytes, reader);
        for answer in cards.by_ref() {
            let answer = match answer {
                Ok(answer) => answer,
                Err(error) => return self.unread(&name, &error),
            };
            self.last = answer.number;
            let mut notes = notes.borrow_mut();
            let place = Place::of(&answer, &name, skipped, &notes);
            notes.forget(answer.offset + answer.length);
            self.answer(&answer, &place)?;
        }
        Ok(())
    }

    fn unread(&mut self, name: &str, error: &io::Error) -> Result<(), Stop> {
        self.report.unread(format!("{name}: {error}"));
        self.go_on()
    }

    fn go_on(&self) -> Result<(), Stop> {
        match self.keep_going {
            true => Ok(()),
            false => Err(Stop::Told),
        }
    }

    fn answer(&mut self, answer: &Answer, place: &Place) -> Result<(), Stop> {
        match &answer.result {
            Ok(json) => {
                self.report.converted(answer.uid_made);
                let uid = member(json, "uid").unwrap_or("null");
                let line = format!(
                    "{{\"number\":{},\"uid\":{uid},{place},\"card\":{json}}}",
                    answer.number
                );
                writeln!(self.out, "{line}").map_err(Stop::Write)
            }
            Err(refusal) => {
                if let Some(explained) = &answer.explained {
                    self.report
                        .refused(&place.head(answer, *refusal), *refusal, explained);
                }
                let key = if is_outside(*refusal) {
                    "after"
                } else {
                    "number"
                };
                let (
                    number,
                    Refusal {
                        number: refused,
                        place: at,
                    },
                ) = (answer.number, *refusal);
                let line =
                    format!("{{\"{key}\":{number},\"refused\":{refused},\"place\":{at},{place}}}");
                writeln!(self.out, "{line}").map_err(Stop::Write)?;
                self.go_on()
            }
        }
    }
}
