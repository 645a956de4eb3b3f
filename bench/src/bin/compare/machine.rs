//! The stream's calls by docs/STREAM.md, for a state of any seven numbers and a card
//! buffer with anything in it: a plain machine that moves the state byte by byte.
//! The baseline's reader holds the open card itself, and so knows only states that
//! calls reach, and buffers that nobody changed.

use thymebarrel::{CARD_BYTES, JSON_BYTES};
use thymebarrel_baseline as baseline;

/// The seven numbers: cards read, 1 where a card is open, bytes stored, bytes of the
/// line begun, and 1 where that line can be no BEGIN, no END, not empty any more.
pub type Row = [usize; 7];

pub const FRESH: Row = [0; 7];

const NUMBER: usize = 0;
const INSIDE: usize = 1;
const LENGTH: usize = 2;
const COLUMN: usize = 3;
const NO_BEGIN: usize = 4;
const NO_END: usize = 5;
const NOT_EMPTY: usize = 6;

/// Counted up to here: every number past the last card's, every length over the
/// room, every column from BEGIN:VCARD CR on.
const PAST: usize = 1_000_000;
const OVER: usize = CARD_BYTES + 1;
const FAR: usize = 12;

/// What a call gives.
#[derive(Debug, PartialEq, Eq)]
pub struct Given {
    /// The number (255 is more), the place, and the JSON.
    pub number: u32,
    pub place: usize,
    pub json: Vec<u8>,
    pub consumed: usize,
}

impl Given {
    fn refused(number: u32, consumed: usize) -> Given {
        Given { number, place: 0, json: Vec::new(), consumed }
    }

    /// What 15 and 16 give.
    pub fn nothing(number: u32) -> Given {
        Given::refused(number, 0)
    }
}

/// Why a state is outside its ranges (16), if it is.
pub fn outside(row: &[usize]) -> Option<&'static str> {
    match row {
        [number, ..] if row.len() == 7 && *number > PAST => Some("the number"),
        [0, 1, ..] if row.len() == 7 => Some("open without a number"),
        [_, _, length, ..] if row.len() == 7 && *length > OVER => Some("the length"),
        [_, _, _, column, ..] if row.len() == 7 && *column > FAR => Some("the column"),
        _ if row.len() != 7 => Some("not seven numbers"),
        _ => None,
    }
}

/// A flag is 1 or else not set, and comes back as 1 or 0 from every call that neither
/// 15 nor 16 refuses: these leave each number as it was.
pub fn flags_plain(row: &mut [usize]) {
    if row.len() == 7 {
        for flag in [INSIDE, NO_BEGIN, NO_END, NOT_EMPTY] {
            row[flag] = usize::from(row[flag] == 1);
        }
    }
}

#[derive(PartialEq)]
enum Line {
    Empty,
    Begin,
    End,
    Other,
}

/// The state and the card buffer of a stream whose calls neither 15 nor 16 refuses.
pub struct Machine<'a> {
    pub row: &'a mut Row,
    pub buffer: &'a mut [u8],
}

impl Machine<'_> {
    pub fn step(&mut self, stem: &[u8], piece: &[u8]) -> Given {
        for (at, &byte) in piece.iter().enumerate() {
            self.store(byte);
            if byte != b'\n' {
                self.within(byte);
            } else if let Some(given) = self.line_end(stem, at + 1) {
                return given;
            }
        }
        Given::refused(255, piece.len())
    }

    /// An end call: the supposed LF is no byte of the buffer.
    pub fn end(&mut self, stem: &[u8]) -> Given {
        let (line, inside) = (self.line(), self.row[INSIDE] == 1);
        let given = match (inside, &line) {
            (true, Line::End) => self.whole_card(stem, 0),
            (true, _) | (false, Line::Begin) => Given::refused(2, 0),
            (false, Line::Empty) => Given::refused(255, 0),
            (false, _) => Given::refused(1, 0),
        };
        match inside && line == Line::Begin {
            true => self.open_the_next(),
            false => *self.row = FRESH,
        }
        given
    }

    fn store(&mut self, byte: u8) {
        let length = self.row[LENGTH];
        if length < CARD_BYTES {
            self.buffer[length] = byte;
        }
        self.row[LENGTH] = (length + 1).min(OVER);
    }

    /// A byte that ends no line: whether the line can still be each of the three.
    fn within(&mut self, byte: u8) {
        let column = self.row[COLUMN];
        for (flag, word) in [(NO_BEGIN, &b"begin:vcard\r"[..]), (NO_END, b"end:vcard\r"), (NOT_EMPTY, b"\r")] {
            let agrees = word.get(column) == Some(&byte.to_ascii_lowercase());
            self.row[flag] = usize::from(self.row[flag] == 1 || !agrees);
        }
        self.row[COLUMN] = (column + 1).min(FAR);
    }

    fn line(&self) -> Line {
        match *self.row {
            [.., not_empty] if not_empty != 1 => Line::Empty,
            [_, _, _, column, no_begin, ..] if no_begin != 1 && column >= 11 => Line::Begin,
            [_, _, _, column, _, no_end, _] if no_end != 1 && column >= 9 => Line::End,
            _ => Line::Other,
        }
    }

    /// After an LF, which is stored: what it answers, if it does.
    fn line_end(&mut self, stem: &[u8], consumed: usize) -> Option<Given> {
        let inside = self.row[INSIDE] == 1;
        match (inside, self.line()) {
            (true, Line::Begin) => {
                self.open_the_next();
                return Some(Given::refused(2, consumed));
            }
            (true, Line::End) => {
                let given = self.whole_card(stem, consumed);
                *self.row = [self.row[NUMBER], 0, 0, 0, 0, 0, 0];
                return Some(given);
            }
            (true, _) => *self.row = [self.row[NUMBER], 1, self.row[LENGTH], 0, 0, 0, 0],
            (false, Line::Begin) => *self.row = [(self.row[NUMBER] + 1).min(PAST), 1, self.row[LENGTH], 0, 0, 0, 0],
            (false, line) => {
                *self.row = [self.row[NUMBER], 0, 0, 0, 0, 0, 0];
                return (line != Line::Empty).then(|| Given::refused(1, consumed));
            }
        }
        None
    }

    /// BEGIN in an open card: the line goes to the front in capitals.
    fn open_the_next(&mut self) {
        let line: &[u8] = if self.row[COLUMN] < FAR { b"BEGIN:VCARD\n" } else { b"BEGIN:VCARD\r\n" };
        self.buffer[..line.len()].copy_from_slice(line);
        *self.row = [(self.row[NUMBER] + 1).min(PAST), 1, line.len(), 0, 0, 0, 0];
    }

    /// What stands in the buffer, as one card.
    fn whole_card(&self, stem: &[u8], consumed: usize) -> Given {
        let [number, _, length, ..] = *self.row;
        if number >= PAST || length > CARD_BYTES {
            return Given::refused(3, consumed);
        }
        let answer = baseline::card_to_json(&self.buffer[..length], stem, number as u64, JSON_BYTES);
        Given { number: answer.number, place: answer.place, json: answer.bytes, consumed }
    }
}
