//! Streams: the same text in many cuts, with refused calls among them, each call
//! held to the baseline's plain reader, and the card buffer to its rule.

use crate::counts::{at_each_line, at_no_place};
use crate::{cards, lent, Case, Compared};
use thymebarrel::{Lent, Refusal, Said, Stream, CARD_BYTES, JSON_BYTES};
use thymebarrel_baseline::generate::{self, Rng, Step};
use thymebarrel_baseline::{Reader, What};

/// Bytes of a stream at the most; now and then a long card stands in it besides.
const STREAM_BYTES: usize = 6_000;
/// The same where every place is cut at.
const CUT_BYTES: usize = 700;

/// A stream has full room (no 14); 11 to 13 are of JSON.
pub fn must() -> Vec<String> {
    let mut must = at_no_place(&[0, 1, 2, 3, 6, 10, 15, 16]);
    must.extend(at_each_line());
    must.push("begun near the last number".to_string());
    must
}

pub fn must_of_cuts() -> Vec<String> {
    at_no_place(&[0, 1, 2, 10])
}

/// One stream in six cuts.
pub fn compare(case: &mut Case) -> Compared {
    let rng = &mut case.rng;
    let mut steps = generate::stream(rng, STREAM_BYTES);
    if rng.below(50) == 0 {
        let at = rng.below(steps.len());
        steps.insert(at, Step::Bytes(long_card(rng)));
    }
    // past 999,999 a card is refused by 3
    let after = rng.mostly(95, &[0], &[1, 999_997, 999_998, 999_999, 1_000_000]);
    if after > 1 {
        case.counts.one("begun near the last number");
    }
    let cuts = [Cut::Whole, Cut::Bytes, Cut::Any(7), Cut::Any(40), Cut::Any(400), Cut::Any(4_000)];
    same_in(case, &steps, after, &cuts)
}

/// One stream cut in two at every byte.
pub fn compare_cuts(case: &mut Case) -> Compared {
    let steps = generate::stream(&mut case.rng, CUT_BYTES);
    let bytes: usize = steps.iter().map(|step| if let Step::Bytes(bytes) = step { bytes.len() } else { 0 }).sum();
    let cuts: Vec<Cut> = (0..=bytes).map(Cut::At).collect();
    same_in(case, &steps, 0, &cuts)
}

/// By each cut what the plain reader gives call by call, and in all of them the same
/// answers.
fn same_in(case: &mut Case, steps: &[Step], after: usize, cuts: &[Cut]) -> Compared {
    let stem = generate::good_stem(&mut case.rng);
    let mut first: Option<Vec<What>> = None;
    for &cut in cuts {
        let mut run = Run::new(&mut case.rng, &stem, after);
        run.all(case, steps, cut).map_err(|why| format!("{cut:?}: {why}: after {after}: {}", shown(steps)))?;
        let want = first.get_or_insert_with(|| run.told.clone());
        if *want != run.told {
            return Err(format!("{cut:?}: other answers than the first cut: after {after}: {}", shown(steps)));
        }
    }
    for (number, place) in first.iter().flatten().map(number_and_place) {
        case.counts.card_answer(number, place);
    }
    Ok(())
}

fn number_and_place(what: &What) -> (u32, usize) {
    match what {
        What::Refused(number, place) => (*number, *place),
        What::Json(_) | What::More => (0, 0),
    }
}

/// A card near its room or a long one with a fault, with its last LF or, for an end
/// call to suppose, without.
fn long_card(rng: &mut Rng) -> Vec<u8> {
    let mut card = match rng.chance(50) {
        true => generate::large_card(rng),
        false => cards::faulty_long_card(rng),
    };
    if rng.chance(50) {
        card.pop();
    }
    card
}

fn shown(steps: &[Step]) -> String {
    let parts = steps.iter().map(|step| match step {
        Step::Bytes(bytes) => bytes.escape_ascii().to_string(),
        Step::End => "<end>".to_string(),
    });
    parts.collect()
}

/// How long the pieces are.
#[derive(Debug, Clone, Copy)]
enum Cut {
    Whole,
    Bytes,
    /// Any length up to this.
    Any(usize),
    /// Cut in two after so many bytes.
    At(usize),
}

impl Cut {
    /// Of a piece with so many bytes of the stream before it.
    fn length(self, rng: &mut Rng, before: usize, left: usize) -> usize {
        match self {
            Cut::Whole => left,
            Cut::Bytes => 1,
            Cut::Any(most) => (1 + rng.below(most)).min(left),
            Cut::At(at) if before < at => left.min(at - before),
            Cut::At(_) => left,
        }
    }
}

/// The library's stream and the plain reader side by side.
pub struct Run<'a> {
    stem: &'a [u8],
    /// Bytes consumed so far.
    consumed: usize,
    ours: Stream,
    theirs: Reader,
    buffer: Vec<u8>,
    out: Vec<u8>,
    /// The output as it should be.
    lent: Vec<u8>,
    rule: BufferRule,
    told: Vec<What>,
}

impl<'a> Run<'a> {
    /// A stream that has read so many cards.
    pub fn new(rng: &mut Rng, stem: &'a [u8], after: usize) -> Run<'a> {
        let more = rng.pick(&[0, 0, 1, 1_000]);
        let buffer = lent::noise(rng, CARD_BYTES + more);
        let out = lent::noise(rng, JSON_BYTES);
        Run {
            stem,
            consumed: 0,
            ours: Stream::after(after),
            theirs: Reader::after(after as u64),
            rule: BufferRule::new(buffer.clone()),
            buffer,
            lent: out.clone(),
            out,
            told: Vec::new(),
        }
    }

    fn all(&mut self, case: &mut Case, steps: &[Step], cut: Cut) -> Result<(), String> {
        for step in steps {
            match step {
                Step::Bytes(bytes) => self.feed(&mut case.rng, bytes, cut)?,
                Step::End => self.end()?,
            }
            self.same_bytes()?;
            if let Some(number) = self.refused_call(&mut case.rng)? {
                case.counts.card_answer(number, 0);
            }
        }
        self.finish()?;
        Ok(())
    }

    /// Two end calls, after which the stream is fresh: the numbers and places of all
    /// answers but more.
    pub fn finish(&mut self) -> Result<Vec<(u32, usize)>, String> {
        self.end()?;
        self.end()?;
        self.same_bytes()?;
        match self.ours == Stream::fresh() {
            true => Ok(self.told.iter().map(number_and_place).collect()),
            false => Err("not fresh after two end calls".to_string()),
        }
    }

    fn feed(&mut self, rng: &mut Rng, bytes: &[u8], cut: Cut) -> Result<(), String> {
        let mut at = 0;
        while at < bytes.len() {
            let upto = at + cut.length(rng, self.consumed, bytes.len() - at);
            self.whole(&bytes[at..upto])?;
            at = upto;
        }
        Ok(())
    }

    /// One piece, handed in again until nothing is left of it; an empty one once.
    pub fn whole(&mut self, piece: &[u8]) -> Result<(), String> {
        let mut at = self.piece(piece)?;
        while at < piece.len() {
            at += self.piece(&piece[at..])?;
        }
        Ok(())
    }

    fn piece(&mut self, piece: &[u8]) -> Result<usize, String> {
        let want = self.theirs.piece(self.stem, piece);
        let (said, consumed) = self.ours.step(self.stem, piece, &mut Lent { buffer: &mut self.buffer, out: &mut self.out });
        if consumed != want.consumed {
            return Err(format!("{} against {consumed} bytes consumed", want.consumed));
        }
        self.consumed += consumed;
        piece[..consumed].iter().for_each(|&byte| self.rule.byte(byte));
        self.same(want.what, said)?;
        Ok(consumed)
    }

    pub fn end(&mut self) -> Result<(), String> {
        let want = self.theirs.end(self.stem);
        let said = self.ours.end(self.stem, &mut Lent { buffer: &mut self.buffer, out: &mut self.out });
        self.rule.end();
        self.same(want.what, said)
    }

    fn same(&mut self, want: What, said: Said) -> Result<(), String> {
        let got = match said {
            Said::More => What::More,
            Said::Json(length) => What::Json(self.out[..length].to_vec()),
            Said::Refused(Refusal { number, place }) => What::Refused(u32::from(number), place),
            other => return Err(format!("{other:?} is unknown here")),
        };
        if got != want {
            return Err(format!("{want:?} against {got:?}"));
        }
        if let What::Json(json) = &got {
            self.lent[..json.len()].copy_from_slice(json);
        }
        if got == What::More {
            return Ok(());
        }
        self.told.push(got);
        self.same_bytes()
    }

    /// Every byte of the output and of the card buffer. Not asked after each more, for
    /// the time's sake: a byte that is wrong then is wrong still at the next answer.
    fn same_bytes(&self) -> Result<(), String> {
        if self.out != self.lent {
            return Err("output was written beyond the length or without a JSON".to_string());
        }
        if self.buffer != self.rule.buffer {
            return Err("the card buffer is not by its rule".to_string());
        }
        Ok(())
    }

    /// A call with a bad stem, a short card buffer or a short output: it is refused
    /// and changes nothing. Its number; now and then none of the three is bad, and
    /// no call is made.
    pub fn refused_call(&mut self, rng: &mut Rng) -> Result<Option<u32>, String> {
        let long = vec![b'a'; 201];
        let stem: &[u8] = [&b""[..], b"a b", &long, self.stem][rng.below(4)];
        let buffer = rng.pick(&[self.buffer.len(), CARD_BYTES - 1, 0]);
        let out = rng.pick(&[JSON_BYTES, JSON_BYTES - 1, 0]);
        let want = match (buffer < CARD_BYTES || out < JSON_BYTES, stem == self.stem) {
            (true, _) => 16,
            (false, false) => 15,
            (false, true) => return Ok(None),
        };
        let before = self.ours.clone();
        let mut lent = Lent { buffer: &mut self.buffer[..buffer], out: &mut self.out[..out] };
        let (said, consumed) = match rng.below(2) {
            0 => (self.ours.end(stem, &mut lent), 0),
            _ => self.ours.step(stem, b"END:VCARD\nx\n", &mut lent),
        };
        if (said, consumed) != (Said::Refused(Refusal { number: want, place: 0 }), 0) {
            return Err(format!("{want} against {said:?}, {consumed} consumed"));
        }
        if self.ours != before {
            return Err(format!("{want} changed the state"));
        }
        self.same_bytes()?;
        Ok(Some(u32::from(want)))
    }
}

/// The card buffer by 01's words: "A consumed byte is stored in the card buffer at
/// its distance from the start of the open card, or of the line outside one, if
/// under 32,768. BEGIN in an open card [..] opens the next, whose BEGIN line is then
/// put at the front in capitals, line end as read."
struct BufferRule {
    buffer: Vec<u8>,
    open: bool,
    distance: usize,
    line: Vec<u8>,
}

impl BufferRule {
    fn new(buffer: Vec<u8>) -> BufferRule {
        BufferRule { buffer, open: false, distance: 0, line: Vec::new() }
    }

    fn byte(&mut self, byte: u8) {
        if self.distance < CARD_BYTES {
            self.buffer[self.distance] = byte;
        }
        self.distance += 1;
        self.line.push(byte);
        if byte == b'\n' {
            self.line_end();
        }
    }

    fn line_end(&mut self) {
        let line = std::mem::take(&mut self.line);
        let text = &line[..line.len() - 1];
        let text = text.strip_suffix(b"\r").unwrap_or(text).to_ascii_uppercase();
        match &text[..] {
            b"BEGIN:VCARD" if self.open => {
                self.buffer[..line.len()].copy_from_slice(&line.to_ascii_uppercase());
                self.distance = line.len();
            }
            b"BEGIN:VCARD" => self.open = true,
            b"END:VCARD" => (self.open, self.distance) = (false, 0),
            _ if !self.open => self.distance = 0,
            _ => {}
        }
    }

    /// The supposed LF is no byte of the buffer, but where it ends the BEGIN line that
    /// opens the next card.
    fn end(&mut self) {
        let text = self.line.strip_suffix(b"\r").unwrap_or(&self.line);
        if self.open && text.eq_ignore_ascii_case(b"BEGIN:VCARD") {
            self.line.push(b'\n');
            self.line_end();
        } else {
            (self.open, self.distance) = (false, 0);
            self.line.clear();
        }
    }
}
