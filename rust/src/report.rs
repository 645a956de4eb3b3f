//! What a run over many cards counts and says: each refusal, the same explanation once,
//! and a summary.

use crate::commands::{say, Failure};
use crate::options::Stem;
use crate::progress::Progress;
use std::collections::BTreeMap;
use thymebarrel::{Explanation, Refusal};

/// Whether a refusal whose explanation was given before is still told by one line.
#[derive(Clone, Copy, PartialEq)]
pub enum Again {
    Head,
    Count,
}

pub struct Report {
    quiet: bool,
    again: Again,
    /// Whether there is more than one answer to sum up.
    many: bool,
    progress: Progress,
    converted: u64,
    /// By number.
    refused: BTreeMap<u8, u64>,
    /// How often each explanation was due: by number, what is wrong and what to do.
    told: BTreeMap<(u8, String, String), u64>,
    unread: u64,
    left_out: u64,
    made: u64,
}

impl Report {
    pub fn new(quiet: bool, again: Again, many: bool) -> Report {
        Report {
            quiet,
            again,
            many,
            progress: Progress::new(quiet),
            converted: 0,
            refused: BTreeMap::new(),
            told: BTreeMap::new(),
            unread: 0,
            left_out: 0,
            made: 0,
        }
    }

    pub fn converted(&mut self, uid_made: bool) {
        self.converted += 1;
        self.made += u64::from(uid_made);
        self.progress.tell(self.converted, self.refusals());
    }

    /// `head` says which input it is.
    pub fn refused(&mut self, head: &str, refusal: Refusal, explained: &Explanation) {
        *self.refused.entry(refusal.number).or_default() += 1;
        let key = (
            refusal.number,
            explained.what.clone(),
            explained.advice.clone(),
        );
        let count = self.told.entry(key).or_default();
        *count += 1;
        let mut lines = vec![format!("{head}: refused {}", refusal.number)];
        match (*count, self.again) {
            (1, _) => lines.extend(explained.lines()),
            (_, Again::Head) => {}
            (_, Again::Count) => lines.clear(),
        }
        self.note(&lines);
        self.progress.tell(self.converted, self.refusals());
    }

    /// A file that cannot be read or written: this is told in any case.
    pub fn unread(&mut self, what: String) {
        self.unread += 1;
        self.progress.clear();
        say(&[what]);
    }

    /// There turn out to be several cards in a file.
    pub fn sum_up(&mut self) {
        self.many = true;
    }

    /// So many files were not come to.
    pub fn left_out(&mut self, files: usize) {
        self.left_out += files as u64;
    }

    /// Something else to know, unless it is to be quiet.
    pub fn note(&mut self, lines: &[String]) {
        if !self.quiet && !lines.is_empty() {
            self.progress.clear();
            say(lines);
        }
    }

    fn refusals(&self) -> u64 {
        self.refused.values().sum()
    }

    /// Ends the run: what was told once for many, made uids, the summary where not all
    /// went well, and the exit status.
    pub fn end(mut self, stem: Option<&Stem>) -> Result<(), Failure> {
        self.progress.clear();
        let many = self.told.iter().filter(|(_, count)| **count > 1);
        let many: Vec<String> = many
            .map(|((number, what, _), count)| {
                format!("refused {number}, {count} times in all: {what}")
            })
            .collect();
        for line in many {
            self.note(&[line]);
        }
        if let Some(stem) = stem.filter(|stem| stem.is_default && self.made > 0) {
            self.note(&made(stem, self.made));
        }
        if self.many && self.refusals() + self.unread + self.left_out > 0 {
            self.note(&[self.summary()]);
        }
        match (self.unread, self.refusals()) {
            (0, 0) => Ok(()),
            (0, _) => Err(Failure::told(1)),
            _ => Err(Failure::told(2)),
        }
    }

    fn summary(&self) -> String {
        let by_number: Vec<String> = self
            .refused
            .iter()
            .map(|(number, count)| format!("{count} by {number}"))
            .collect();
        let numbers = match by_number.is_empty() {
            true => String::new(),
            false => format!(" ({})", by_number.join(", ")),
        };
        let more = |count: u64, what: &str| match count {
            0 => String::new(),
            1 => format!(", 1 file {what}"),
            _ => format!(", {count} files {what}"),
        };
        let (converted, refused) = (self.converted, self.refusals());
        format!(
            "{converted} converted, {refused} refused{numbers}{}{}",
            more(self.unread, "not read"),
            more(self.left_out, "not come to"),
        )
    }
}

fn made(stem: &Stem, count: u64) -> [String; 2] {
    let stem = String::from_utf8_lossy(&stem.bytes);
    let which = match count {
        1 => "one card has no UID: its uid was made".to_string(),
        _ => format!("{count} cards have no UID: their uids were made"),
    };
    [format!("{which} of the stem {stem}"), "another run makes the same again: give each source its own --stem, and --number to count on".to_string()]
}
