//! A reader that leaves lines of some names out of cards, with the lines that they are
//! folded to, before the library sees them. What was left out, and where, is noted: so
//! it can be told, and places in the file can still be given.

use std::cell::RefCell;
use std::io::{self, BufRead, Read};
use std::rc::Rc;

/// A line that was left out.
pub struct LeftOut {
    /// The property's name, in capitals.
    pub name: String,
    /// How many bytes had been passed on before it.
    pub at: u64,
    /// How many bytes it took.
    pub bytes: u64,
}

/// The lines left out, but for those that are forgotten, of which the bytes are known.
#[derive(Default)]
pub struct Notes {
    lines: Vec<LeftOut>,
    forgotten: u64,
}

impl Notes {
    /// Bytes that were left out before so many were passed on.
    pub fn bytes_before(&self, at: u64) -> u64 {
        let before = self.lines.iter().filter(|line| line.at <= at);
        self.forgotten + before.map(|line| line.bytes).sum::<u64>()
    }

    /// The names of the lines left out of this part, each once.
    pub fn names(&self, from: u64, to: u64) -> Vec<String> {
        let inside = self
            .lines
            .iter()
            .filter(|line| from < line.at && line.at < to);
        let mut names: Vec<String> = inside.map(|line| line.name.clone()).collect();
        names.sort();
        names.dedup();
        names
    }

    /// Keeps only the bytes of lines up to there.
    pub fn forget(&mut self, at: u64) {
        self.forgotten = self.bytes_before(at);
        self.lines.retain(|line| line.at > at);
    }
}

/// Longer than any name that can be asked for and is sensible.
const LOOK: u64 = 300;

pub struct Without<R> {
    input: R,
    names: Vec<String>,
    notes: Rc<RefCell<Notes>>,
    /// The beginning of the line that is looked at, or of what is passed on.
    front: Vec<u8>,
    at_line_start: bool,
    leaving_out: bool,
    passed: u64,
}

impl<R: BufRead> Without<R> {
    pub fn new(input: R, names: Vec<String>) -> (Without<R>, Rc<RefCell<Notes>>) {
        let notes = Rc::new(RefCell::new(Notes::default()));
        let reader = Without {
            input,
            names,
            notes: notes.clone(),
            front: Vec::new(),
            at_line_start: true,
            leaving_out: false,
            passed: 0,
        };
        (reader, notes)
    }

    /// Reads on until there is something to pass on, or the input ends.
    fn fill(&mut self) -> io::Result<()> {
        while self.front.is_empty() {
            let mut part = Vec::new();
            self.input
                .by_ref()
                .take(LOOK)
                .read_until(b'\n', &mut part)?;
            if part.is_empty() {
                return Ok(());
            }
            if self.at_line_start {
                self.look(&part);
            }
            self.at_line_start = part.ends_with(b"\n");
            match self.leaving_out {
                true => self.note(part.len() as u64),
                false => self.front = part,
            }
        }
        Ok(())
    }

    /// Whether this line is to be left out: a folded one goes with the line it belongs to.
    fn look(&mut self, line: &[u8]) {
        if matches!(line.first(), Some(b' ' | b'\t')) {
            return;
        }
        let end = line.iter().position(|b| b";:".contains(b));
        let name = end.map_or(&[][..], |end| &line[..end]);
        let name = name.rsplit(|b| *b == b'.').next().unwrap_or_default();
        let name = String::from_utf8_lossy(name).to_ascii_uppercase();
        self.leaving_out = self.names.contains(&name);
        if self.leaving_out {
            self.notes.borrow_mut().lines.push(LeftOut {
                name,
                at: self.passed,
                bytes: 0,
            });
        }
    }

    fn note(&mut self, bytes: u64) {
        if let Some(line) = self.notes.borrow_mut().lines.last_mut() {
            line.bytes += bytes;
        }
    }
}

impl<R: BufRead> Read for Without<R> {
    fn read(&mut self, into: &mut [u8]) -> io::Result<usize> {
        let length = self.fill_buf()?.read(into)?;
        self.consume(length);
        Ok(length)
    }
}

impl<R: BufRead> BufRead for Without<R> {
    fn fill_buf(&mut self) -> io::Result<&[u8]> {
        self.fill()?;
        Ok(&self.front)
    }

    fn consume(&mut self, length: usize) {
        self.front.drain(..length);
        self.passed += length as u64;
    }
}
