//! Streams from any state: at the ends of its ranges, outside them (16), and such as
//! no list of calls reaches, with anything in the card buffer. Each call is held to
//! the plain machine of docs/STREAM.md by all that it gives.

use crate::counts::at_no_place;
use crate::machine::{flags_plain, outside, Given, Machine, Row, FRESH};
use crate::{lent, raw, Case, Compared};
use thymebarrel::{CARD_BYTES, JSON_BYTES};
use thymebarrel_baseline::generate::{self, Rng};

pub fn must() -> Vec<String> {
    let reasons = ["the number", "open without a number", "the length", "the column", "not seven numbers", "the card buffer", "the output"];
    let mut must: Vec<String> = reasons.iter().map(|why| format!("16 refused: {why}")).collect();
    must.extend(at_no_place(&[0, 1, 2, 3, 6, 10, 15]));
    must.extend(["255 more", "fresh after two end calls"].map(String::from));
    must
}

/// A state and what is lent, twice: as the library and as the machine leave it.
struct Both {
    ours: Vec<usize>,
    row: Vec<usize>,
    buffer: Vec<u8>,
    machine_buffer: Vec<u8>,
    out: Vec<u8>,
    machine_out: Vec<u8>,
}

pub fn compare(case: &mut Case) -> Compared {
    let (row, front) = any_state(&mut case.rng);
    let piece = any_piece(&mut case.rng, &front);
    let mut both = Both::new(&mut case.rng, row.clone(), &front.bytes[..front.cut]);
    both.calls(case, &piece).map_err(|why| format!("state {row:?} front {} piece {}: {why}", front.bytes.escape_ascii(), piece.escape_ascii()))
}

impl Both {
    fn new(rng: &mut Rng, row: Vec<usize>, front: &[u8]) -> Both {
        // now and then too short: 16
        let room = rng.mostly(97, &[CARD_BYTES], &[CARD_BYTES + 1, CARD_BYTES - 1, 0]);
        let output = rng.mostly(97, &[JSON_BYTES], &[JSON_BYTES + 1, JSON_BYTES - 1, 0]);
        let mut buffer = lent::noise(rng, room);
        let known = front.len().min(room);
        buffer[..known].copy_from_slice(&front[..known]);
        let out = lent::noise(rng, output);
        Both { ours: row.clone(), row, machine_buffer: buffer.clone(), buffer, machine_out: out.clone(), out }
    }

    /// The piece, what is left of it, and two end calls; a call in ten has a bad stem.
    fn calls(&mut self, case: &mut Case, piece: &[u8]) -> Compared {
        let stem = generate::good_stem(&mut case.rng);
        let mut at = 0;
        for _ in 0..4 {
            let bad = case.rng.chance(10);
            let number = self.call(case, if bad { b"a b" } else { &stem }, Some(&piece[at..]), &mut at)?;
            // no call mends what is unfit
            if number == 16 {
                return Ok(());
            }
        }
        for _ in 0..2 {
            self.call(case, &stem, None, &mut 0)?;
        }
        match self.ours[..] == FRESH[..] {
            true => case.counts.one("fresh after two end calls"),
            false => return Err(format!("not fresh after two end calls: {:?}", self.ours)),
        }
        Ok(())
    }

    /// One call by both: its number, and how much further `at` is for it.
    fn call(&mut self, case: &mut Case, stem: &[u8], piece: Option<&[u8]>, at: &mut usize) -> Result<u32, String> {
        let want = self.machine(case, stem, piece);
        let (told, consumed) = raw::stream(&mut self.ours, stem, piece, &mut self.buffer, &mut self.out);
        let wanted = ((want.number, want.place, want.json.len()), want.consumed);
        if (told, consumed) != wanted {
            return Err(format!("told and consumed {wanted:?} against {told:?}, {consumed}"));
        }
        self.machine_out[..want.json.len()].copy_from_slice(&want.json);
        if self.ours != self.row {
            return Err(format!("state {:?} against {:?}", self.row, self.ours));
        }
        if self.buffer != self.machine_buffer || self.out != self.machine_out {
            return Err(format!("{}: another card buffer or output", want.number));
        }
        *at += consumed;
        Ok(want.number)
    }

    /// What the machine gives, counted.
    fn machine(&mut self, case: &mut Case, stem: &[u8], piece: Option<&[u8]>) -> Given {
        if let Some(why) = self.unfit() {
            case.counts.one(format!("16 refused: {why}"));
            return Given::nothing(16);
        }
        if stem == b"a b" {
            case.counts.card_answer(15, 0);
            return Given::nothing(15);
        }
        flags_plain(&mut self.row);
        let row: &mut Row = self.row.as_mut_slice().try_into().expect("a fit state has seven numbers");
        let mut machine = Machine { row, buffer: &mut self.machine_buffer };
        let given = match piece {
            Some(piece) => machine.step(stem, piece),
            None => machine.end(stem),
        };
        match given.number {
            255 => case.counts.one("255 more"),
            number => case.counts.card_answer(number, given.place),
        }
        given
    }

    fn unfit(&self) -> Option<&'static str> {
        match (self.buffer.len() < CARD_BYTES, self.out.len() < JSON_BYTES) {
            (true, _) => Some("the card buffer"),
            (_, true) => Some("the output"),
            _ => outside(&self.row),
        }
    }
}

/// A card, and how much of it stands in the buffer already.
struct Front {
    bytes: Vec<u8>,
    cut: usize,
}

/// Half of the states stand at the start of a line of an open card, whose bytes are
/// in the buffer; the others are any numbers, mostly in their ranges.
fn any_state(rng: &mut Rng) -> (Vec<usize>, Front) {
    let bytes = generate::card(rng);
    let starts: Vec<usize> = (1..bytes.len()).filter(|&at| bytes[at - 1] == b'\n').collect();
    let cut = if starts.is_empty() { 0 } else { rng.pick(&starts) };
    let number = rng.mostly(50, &[1, 2, 77], &[999_998, 999_999, 1_000_000]);
    let mut row = vec![number, 1, cut, 0, 0, 0, 0];
    if rng.chance(50) {
        row = any_numbers(rng);
    }
    if rng.chance(1) {
        row.resize(rng.pick(&[0, 1, 6, 8]), 0);
    }
    (row, Front { bytes, cut })
}

const BIG: usize = usize::MAX;

fn any_numbers(rng: &mut Rng) -> Vec<usize> {
    let any = [rng.below(1_000_001), rng.below(CARD_BYTES + 2), rng.below(13)];
    let number = rng.mostly(96, &[0, 1, 999_999, 1_000_000, any[0]], &[1_000_001, BIG]);
    let length = rng.mostly(96, &[0, 12, CARD_BYTES - 1, CARD_BYTES, CARD_BYTES + 1, any[1]], &[CARD_BYTES + 2, BIG]);
    let column = rng.mostly(96, &[0, 8, 9, 11, 12, any[2]], &[13, BIG]);
    let mut row = vec![number, 0, length, column, 0, 0, 0];
    for flag in [1, 4, 5, 6] {
        row[flag] = rng.mostly(90, &[0, 1], &[2, BIG]);
    }
    row
}

const PIECES: [&str; 10] =
    ["", "\n", "\r\n", "END:VCARD\n", "BEGIN:VCARD\n", "BEGIN:VCARD\r\nVERSION:4.0\nFN:a\nend:vcard\r\n", ":vcard\n", "d\r\n", "x\n", "BEGIN:VCARD"];

/// The rest of the card, or what may end a line begun.
fn any_piece(rng: &mut Rng, front: &Front) -> Vec<u8> {
    match rng.chance(50) {
        true => front.bytes[front.cut..].to_vec(),
        false => (0..rng.below(4)).flat_map(|_| rng.pick(&PIECES).bytes()).collect(),
    }
}
