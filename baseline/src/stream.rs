//! The plain reader of a stream of cards (01, "The stream").

use crate::card_to_json::card_to_json;
use crate::chars::is_stem;
use crate::limits::{JSON_BYTES, LAST_CARD_NUMBER};
use crate::physical::{content, is_begin, is_end};
use crate::refusal::*;

/// What a call tells: the bytes consumed, and what came of them.
#[derive(Debug, Clone, PartialEq, Eq)]
pub struct Told {
    pub consumed: usize,
    pub what: What,
}

#[derive(Debug, Clone, PartialEq, Eq)]
pub enum What {
    More,
    Json(Vec<u8>),
    /// Number and place.
    Refused(u32, usize),
}

/// The open card, the line begun, and the last card's number.
#[derive(Debug, Clone, Default, PartialEq, Eq)]
pub struct Reader {
    card: Option<Vec<u8>>,
    line: Vec<u8>,
    number: u64,
}

impl Reader {
    pub fn fresh() -> Reader {
        Reader::default()
    }

    /// One that has read so many cards and is at the start of a line.
    pub fn after(number: u64) -> Reader {
        Reader {
            number,
            ..Reader::default()
        }
    }

    /// Reads a piece until a line answers, else all of it.
    pub fn piece(&mut self, stem: &[u8], bytes: &[u8]) -> Told {
        if !is_stem(stem) {
            return bad_stem();
        }
        for (index, &byte) in bytes.iter().enumerate() {
            self.line.push(byte);
            if byte == b'\n' {
                if let Some(what) = self.end_line(stem) {
                    return Told {
                        consumed: index + 1,
                        what,
                    };
                }
            }
        }
        Told {
            consumed: bytes.len(),
            what: What::More,
        }
    }

    /// Reads one supposed LF. What is still open then is closed by 2.
    pub fn end(&mut self, stem: &[u8]) -> Told {
        if !is_stem(stem) {
            return bad_stem();
        }
        self.line.push(b'\n');
        let answer = self.end_line(stem);
        let what = answer.unwrap_or_else(|| match self.card.take() {
            Some(_) => refused(CARD_LEFT_OPEN),
            None => What::More,
        });
        if self.card.is_none() {
            *self = Reader::fresh();
        }
        Told { consumed: 0, what }
    }

    /// Handles the line just ended; Some if it answers.
    fn end_line(&mut self, stem: &[u8]) -> Option<What> {
        let line = std::mem::take(&mut self.line);
        let text = content(&line);
        if is_begin(text) {
            let next = Some(line);
            let left_open = std::mem::replace(&mut self.card, next).is_some();
            self.number = self.number.saturating_add(1);
            return left_open.then(|| refused(CARD_LEFT_OPEN));
        }
        let Some(card) = &mut self.card else {
            return (!text.is_empty()).then(|| refused(NOT_ONE_CARD));
        };
        card.extend_from_slice(&line);
        if !is_end(text) {
            return None;
        }
        let card = self.card.take()?;
        Some(answer(&card, stem, self.number))
    }
}

fn bad_stem() -> Told {
    Told {
        consumed: 0,
        what: refused(BAD_STEM_OR_NUMBER),
    }
}

fn refused(number: u32) -> What {
    What::Refused(number, 0)
}

/// What 01 gives these bytes as one card, or 3 past the last number.
fn answer(card: &[u8], stem: &[u8], number: u64) -> What {
    if number > LAST_CARD_NUMBER {
        return refused(OVER_ROOM);
    }
    let answer = card_to_json(card, stem, number, JSON_BYTES);
    match answer.number {
        0 => What::Json(answer.bytes),
        number => What::Refused(number, answer.place),
    }
}
