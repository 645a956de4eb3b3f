//! Streams: whole and half cards, junk and empty lines, with ends in between.

use super::Rng;

const EMPTY_LINES: [&str; 4] = ["\n", "\r\n", "\n\n", "\r"];
const CARD_LINES: [&str; 4] = [
    "BEGIN:VCARD\n",
    "begin:vcard\r\n",
    "END:VCARD\n",
    "BEGIN:VCARD",
];
const JUNK: [&str; 6] = [
    "junk\n",
    " \n",
    "\r\r\n",
    " x\n",
    "BEGIN:VCARD \n",
    "\u{feff}BEGIN:VCARD\n",
];
const GOOD_BODIES: [&str; 3] = [
    "VERSION:4.0\nFN:a\n",
    "VERSION:4.0\r\nFN:Ada\r\nUID:u\r\n",
    "VERSION:4.0\nFN:a\nTEL:1\n",
];
const BAD_BODIES: [&str; 4] = ["FN:a\n", "VERSION:4.0\n", "VERSION:4.0\nFN:a\n\n", ""];

/// What a stream's caller has next: bytes to feed, or an end to call.
#[derive(Debug, Clone, PartialEq, Eq)]
pub enum Step {
    Bytes(Vec<u8>),
    End,
}

/// A stream of under `room` bytes in all, with an end call last.
pub fn stream(rng: &mut Rng, room: usize) -> Vec<Step> {
    let mut steps = Vec::new();
    let mut used = 0;
    for _ in 0..1 + rng.below(6) {
        let bytes = segment(rng);
        if used + bytes.len() >= room {
            break;
        }
        used += bytes.len();
        steps.push(Step::Bytes(bytes));
        if rng.chance(15) {
            steps.push(Step::End);
        }
    }
    steps.push(Step::End);
    steps
}

fn segment(rng: &mut Rng) -> Vec<u8> {
    match rng.below(12) {
        0..=3 => small_card(rng),
        4..=6 => super::card(rng),
        7 => half_card(rng),
        8 => rng.pick(&EMPTY_LINES).as_bytes().to_vec(),
        9 => rng.pick(&CARD_LINES).as_bytes().to_vec(),
        10 => rng.pick(&JUNK).as_bytes().to_vec(),
        _ => small_card(rng).repeat(1 + rng.below(3)),
    }
}

fn small_card(rng: &mut Rng) -> Vec<u8> {
    let body = rng.mostly(75, &GOOD_BODIES, &BAD_BODIES);
    let (begin, end) = (rng.any_case("BEGIN:VCARD"), rng.any_case("END:VCARD"));
    format!("{begin}\n{body}{end}\n").into_bytes()
}

/// A card without its end, or, seldom, without its beginning.
fn half_card(rng: &mut Rng) -> Vec<u8> {
    let mut card = super::card(rng);
    let at = rng.below(card.len() + 1);
    match rng.chance(75) {
        true => card.truncate(at),
        false => drop(card.drain(..at)),
    }
    card
}
