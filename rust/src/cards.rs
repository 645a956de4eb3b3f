//! The answers to a stream of cards, one after the other.

use crate::explain::Explanation;
use crate::lines::has_uid;
use crate::{utf8, Lent, Reason, Refusal, Said, Stream, CARD_BYTES, JSON_BYTES};
use std::fmt;
use std::io::{self, BufRead, ErrorKind};

/// What a stream answers: to a card, or to a line that stands outside of any.
#[derive(Debug, Clone, PartialEq, Eq)]
#[non_exhaustive]
pub struct Answer {
    /// The card's number in the stream; of a line outside a card (refusal 1), that of
    /// the last card before it.
    pub number: usize,
    /// Where the card, or the line, begins in the input.
    pub offset: u64,
    /// How many bytes of the input it takes.
    pub length: u64,
    /// Its JSON, or why it is refused.
    pub result: Result<String, Refusal>,
    /// What is wrong and what to tell the sender; none where it converts.
    pub explained: Option<Explanation>,
    /// Whether the card has no UID line, so that its uid is made of stem and number.
    pub uid_made: bool,
}

/// Reads cards from an input of any length, in memory of a fixed size.
///
/// Every card that is begun gets one answer, and so does every line outside a card
/// that is not empty. A stem that is refused (15) is answered once, and then all is over.
///
/// ```
/// let cards = "BEGIN:VCARD\nVERSION:4.0\nFN:Ada Moss\nEND:VCARD\njunk\n";
/// let mut answers = thymebarrel::Cards::new("reg", cards.as_bytes());
/// let first = answers.next().unwrap()?;
/// assert!(first.result.is_ok() && first.uid_made);
/// let second = answers.next().unwrap()?;
/// assert_eq!((second.offset, second.result.unwrap_err().number), (46, 1));
/// # Ok::<(), std::io::Error>(())
/// ```
pub struct Cards<R> {
    input: R,
    stem: Vec<u8>,
    stream: Stream,
    buffer: Vec<u8>,
    out: Vec<u8>,
    number: usize,
    /// Bytes read so far.
    at: u64,
    /// Where the line that is being read begins.
    line: u64,
    /// Where the open card begins.
    card: u64,
    over: bool,
}

impl<R: BufRead> Cards<R> {
    /// The stem, with a card's number, makes the UID of a card without one.
    pub fn new(stem: impl AsRef<[u8]>, input: R) -> Cards<R> {
        Cards::after(0, stem, input)
    }

    /// The same, where the first card's number is one more than `cards`.
    pub fn after(cards: usize, stem: impl AsRef<[u8]>, input: R) -> Cards<R> {
        Cards {
            input,
            stem: stem.as_ref().to_vec(),
            stream: Stream::after(cards),
            buffer: vec![0; CARD_BYTES],
            out: vec![0; JSON_BYTES],
            number: cards,
            at: 0,
            line: 0,
            card: 0,
            over: false,
        }
    }

    /// The number of the last card that was answered.
    pub fn number(&self) -> usize {
        self.number
    }

    /// Reads up to the next answer.
    fn read(&mut self) -> io::Result<Option<Answer>> {
        while !self.over {
            let piece = match self.input.fill_buf() {
                Ok(piece) => piece,
                Err(error) if error.kind() == ErrorKind::Interrupted => continue,
                Err(error) => return Err(error),
            };
            if piece.is_empty() {
                return Ok(self.end());
            }
            // a line at the most, so that its place in the input is known
            let line = piece.iter().position(|b| *b == b'\n').map(|k| &piece[..=k]);
            let piece = line.unwrap_or(piece);
            let ends_line = line.is_some();
            let was_open = self.stream.is_open();
            let mut lent = Lent {
                buffer: &mut self.buffer,
                out: &mut self.out,
            };
            let (said, consumed) = self.stream.step(&self.stem, piece, &mut lent);
            self.input.consume(consumed);
            self.at += consumed as u64;
            let answer = self.answer(said, was_open);
            if ends_line {
                self.line = self.at;
            }
            if answer.is_some() {
                return Ok(answer);
            }
        }
        Ok(None)
    }

    /// One end call. A second follows only where the first leaves a card open.
    fn end(&mut self) -> Option<Answer> {
        let was_open = self.stream.is_open();
        let mut lent = Lent {
            buffer: &mut self.buffer,
            out: &mut self.out,
        };
        let said = self.stream.end(&self.stem, &mut lent);
        self.over = !self.stream.is_open();
        self.answer(said, was_open)
    }

    /// What a call said, with its place in the input.
    fn answer(&mut self, said: Said, was_open: bool) -> Option<Answer> {
        let is_open = self.stream.is_open();
        let result = match said {
            Said::More => None,
            Said::Json(length) => Some(Ok(utf8(&self.out[..length]))),
            Said::Refused(refusal) => Some(Err(refusal)),
        };
        let answer = result.map(|result| {
            // a card that is refused for the BEGIN of the next ends where that begins
            let offset = if was_open { self.card } else { self.line };
            let end = if is_open { self.line } else { self.at };
            self.placed(result, offset, end - offset)
        });
        if is_open && (answer.is_some() || !was_open) {
            self.card = self.line;
        }
        answer
    }

    fn placed(&mut self, result: Result<String, Refusal>, offset: u64, length: u64) -> Answer {
        let reason = result.as_ref().err().and_then(|refusal| refusal.reason());
        match reason {
            Some(Reason::BadStemOrNumber) => self.over = true,
            Some(Reason::NotOneCard) => {}
            _ => self.number = self.number.saturating_add(1),
        }
        let stored = usize::try_from(length).map_or(CARD_BYTES, |n| n.min(CARD_BYTES));
        let stored = &self.buffer[..stored];
        let explained = |refusal: &Refusal| refusal.explain_in_stream(self.number, length, stored);
        Answer {
            number: self.number,
            offset,
            length,
            explained: result.as_ref().err().map(explained),
            uid_made: result.as_ref().is_ok_and(|json| self.is_made(json, stored)),
            result,
        }
    }

    /// The uid stands third in the JSON, after two members that are always the same.
    fn is_made(&self, json: &str, card: &[u8]) -> bool {
        let (stem, number) = (String::from_utf8_lossy(&self.stem), self.number);
        let made = format!(r#"{{"@type":"Card","version":"1.0","uid":"{stem}-{number}""#);
        json.starts_with(&made) && !has_uid(card)
    }
}

impl<R> fmt::Debug for Cards<R> {
    fn fmt(&self, f: &mut fmt::Formatter<'_>) -> fmt::Result {
        let mut shown = f.debug_struct("Cards");
        shown.field("number", &self.number).field("at", &self.at);
        shown.field("over", &self.over).finish_non_exhaustive()
    }
}

impl<R: BufRead> Iterator for Cards<R> {
    type Item = io::Result<Answer>;

    /// After an error of the input there are no more answers.
    fn next(&mut self) -> Option<io::Result<Answer>> {
        match self.read() {
            Ok(answer) => answer.map(Ok),
            Err(error) => {
                self.over = true;
                Some(Err(error))
            }
        }
    }
}
