//! Card to JSON.

use crate::counts::{at_each_line, at_no_place};
use crate::{lent, raw, Case, Compared};
use thymebarrel::JSON_BYTES;
use thymebarrel_baseline as baseline;
use thymebarrel_baseline::generate::{self, Rng};

pub fn must() -> Vec<String> {
    let mut must = at_no_place(&[0, 1, 3, 6, 10, 14, 15]);
    must.extend(at_each_line());
    must.extend(lent::CLASSES.map(String::from));
    must
}

/// Number, place, length, and every byte of the lent output, those beyond the
/// length too.
pub fn compare(case: &mut Case) -> Compared {
    let rng = &mut case.rng;
    let card = any_card(rng);
    let (stem, number) = (generate::stem(rng), generate::number(rng));
    let full = baseline::card_to_json(&card, &stem, number, JSON_BYTES);
    let length = full.bytes.len();
    let room = lent::room(rng, length, JSON_BYTES);
    let want = if room < length { too_short() } else { full };
    let lent = lent::noise(rng, room);
    let mut out = lent.clone();
    let got = raw::card_to_json(&stem, number as usize, &card, &mut out);
    case.counts.one(lent::class(room, length, JSON_BYTES));
    case.counts.card_answer(got.0, got.1);
    lent::same(&want, got, &lent, &out).map_err(|why| {
        let (stem, card) = (stem.escape_ascii(), card.escape_ascii());
        format!("stem {stem} number {number} room {room} card {card}: {why}")
    })
}

/// 14: the one answer that depends on the room, so that the baseline need not be
/// asked twice.
pub fn too_short() -> baseline::Answer {
    baseline::Answer { number: 14, place: 0, bytes: Vec::new() }
}

/// A card as they come; now and then one near its room, or a long one with a fault
/// in any of its lines.
pub fn any_card(rng: &mut Rng) -> Vec<u8> {
    match rng.below(400) {
        0 | 1 => generate::large_card(rng),
        2 => faulty_long_card(rng),
        _ => generate::card(rng),
    }
}

/// What is refused by 4, 5, 7, 8 and 9, as lines.
const FAULTS: [&str; 8] = ["X:\u{1}", "X:\u{7f}", "X", "X_Y:v", "UID;X=1:u", "X;GROUP=a:v", "UID:u\nKIND:org\nKIND:org", "UID:"];

/// Up to 512 short lines, with a fault after any of them.
pub fn faulty_long_card(rng: &mut Rng) -> Vec<u8> {
    let lines = 200 + rng.below(305);
    let at = rng.below(lines);
    let fault = rng.pick(&FAULTS);
    let (before, after) = ("X:a\n".repeat(at), "X:b\n".repeat(lines - at));
    format!("BEGIN:VCARD\nVERSION:4.0\nFN:a\n{before}{fault}\n{after}END:VCARD\n").into_bytes()
}
