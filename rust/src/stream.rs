//! A stream call by call, with memory that the caller lends. `Cards` is easier.

use crate::{ffi, Refusal};

/// A stream's state as numbers, in the order of docs/STREAM.md, the last three
/// turned round: all 0 is the fresh state.
pub type Words = [usize; Stream::WORDS];

/// What a call of a stream says: nothing yet, the length of the JSON at the front
/// of the output, or a refusal.
#[derive(Debug, Clone, Copy, PartialEq, Eq)]
#[non_exhaustive]
pub enum Said {
    /// No line answered: hand in more.
    More,
    /// A card's JSON stands at the front of the output, so many bytes of it.
    Json(usize),
    /// A card, or a line outside of any, is refused.
    Refused(Refusal),
}

/// What a stream is lent by each call: the card buffer, at least `CARD_BYTES`, which
/// holds the open card from call to call, and the output, at least `JSON_BYTES`.
#[derive(Debug)]
pub struct Lent<'a> {
    /// The card buffer: keep it from call to call, and change nothing in it.
    pub buffer: &'a mut [u8],
    /// Where the JSON is written.
    pub out: &'a mut [u8],
}

/// A stream of cards, each to JSON, in pieces cut anywhere.
///
/// ```
/// use thymebarrel::{Lent, Said, Stream, CARD_BYTES, JSON_BYTES};
/// let (mut buffer, mut out) = (vec![0; CARD_BYTES], vec![0; JSON_BYTES]);
/// let mut lent = Lent { buffer: &mut buffer, out: &mut out };
/// let mut stream = Stream::fresh();
/// let (said, consumed) = stream.step(b"reg", b"BEGIN:VC", &mut lent);
/// assert_eq!((said, consumed), (Said::More, 8));
/// let (said, _) = stream.step(b"reg", b"ARD\nVERSION:4.0\nFN:a\nEND:VCARD\n", &mut lent);
/// assert!(matches!(said, Said::Json(_)));
/// assert_eq!(stream.end(b"reg", &mut lent), Said::More);
/// ```
#[derive(Debug, Clone, Default, PartialEq, Eq)]
pub struct Stream(Words);

impl Stream {
    /// The numbers of a state, in C.
    pub const WORDS: usize = 7;
    /// What a call in C answers where no line did.
    pub const MORE: u8 = 255;

    /// No card yet, no line begun.
    pub fn fresh() -> Stream {
        Stream::default()
    }

    /// The state in which so many cards have been read and nothing is begun: the
    /// next card has the next number.
    pub fn after(cards: usize) -> Stream {
        const PAST: usize = 1_000_000;
        Stream([cards.min(PAST), 0, 0, 0, 0, 0, 0])
    }

    /// Whether a card is open.
    pub fn is_open(&self) -> bool {
        self.0[1] == 1
    }

    /// Reads a piece until a line answers, else all of it: what is said, and the
    /// bytes consumed. 15 and 16 consume nothing.
    pub fn step(&mut self, stem: &[u8], piece: &[u8], lent: &mut Lent) -> (Said, usize) {
        ffi::stream_step(&mut self.0, stem, piece, lent)
    }

    /// Supposes one LF. At most two such calls make the stream fresh.
    pub fn end(&mut self, stem: &[u8], lent: &mut Lent) -> Said {
        ffi::stream_end(&mut self.0, stem, lent).0
    }
}
