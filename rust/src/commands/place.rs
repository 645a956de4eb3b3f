//! Where an answer's card stands in its file, in words and as members of a line of JSON.

use crate::without::Notes;
use std::fmt;
use thymebarrel::{Answer, Reason, Refusal};

/// A line that is in no card: `after` the last card before it.
pub fn is_outside(refusal: Refusal) -> bool {
    refusal.reason() == Some(Reason::NotOneCard)
}

/// Where an answer's card stands in its file.
pub struct Place<'a> {
    file: &'a str,
    offset: u64,
    length: u64,
    without: Vec<String>,
}

impl<'a> Place<'a> {
    pub fn of(answer: &Answer, file: &'a str, skipped: u64, notes: &Notes) -> Place<'a> {
        let (from, to) = (answer.offset, answer.offset + answer.length);
        let left_out = notes.bytes_before(from);
        let inside = notes.bytes_before(to.saturating_sub(1)) - left_out;
        Place {
            file,
            offset: from + skipped + left_out,
            length: answer.length + inside,
            without: notes.names(from, to),
        }
    }

    /// Which card it is, and where.
    pub fn head(&self, answer: &Answer, refusal: Refusal) -> String {
        let Place {
            file,
            offset,
            length,
            ..
        } = self;
        let after = if is_outside(refusal) { "after " } else { "" };
        format!(
            "{file}: {after}card {}, {length} bytes from byte {offset}",
            answer.number
        )
    }
}

/// The members that both kinds of lines have.
impl fmt::Display for Place<'_> {
    fn fmt(&self, f: &mut fmt::Formatter<'_>) -> fmt::Result {
        let Place {
            file,
            offset,
            length,
            without,
        } = self;
        write!(
            f,
            "\"file\":{},\"offset\":{offset},\"length\":{length}",
            json_string(file)
        )?;
        if !without.is_empty() {
            let names: Vec<String> = without.iter().map(|name| json_string(name)).collect();
            write!(f, ",\"without\":[{}]", names.join(","))?;
        }
        Ok(())
    }
}

fn json_string(text: &str) -> String {
    let mut string = String::from("\"");
    for c in text.chars() {
        match c {
            '"' | '\\' => string.extend(['\\', c]),
            c if c.is_control() => string.push_str(&format!("\\u{:04x}", c as u32)),
            c => string.push(c),
        }
    }
    string.push('"');
    string
}
