//! Every room: each input with outputs of every length from none to one byte more
//! than its result, and full.

use crate::raw::Told;
use crate::{cards, lent, raw, texts, Case, Compared};
use thymebarrel::{CARD_BYTES, JSON_BYTES};
use thymebarrel_baseline as baseline;
use thymebarrel_baseline::generate::{self, Rng};

pub fn must() -> Vec<String> {
    lent::CLASSES.map(String::from).to_vec()
}

pub fn compare(case: &mut Case) -> Compared {
    match case.rng.chance(50) {
        true => out_of_card(case),
        false => out_of_json(case),
    }
}

fn out_of_card(case: &mut Case) -> Compared {
    let card = cards::any_card(&mut case.rng);
    let stem = generate::good_stem(&mut case.rng);
    let want = baseline::card_to_json(&card, &stem, 7, JSON_BYTES);
    let call = |out: &mut [u8]| raw::card_to_json(&stem, 7, &card, out);
    every_room(case, &want, JSON_BYTES, call).map_err(|why| format!("{why}: card {}", card.escape_ascii()))
}

fn out_of_json(case: &mut Case) -> Compared {
    let json = texts::any_text(&mut case.rng);
    let want = baseline::json_to_card(&json, CARD_BYTES);
    let call = |out: &mut [u8]| raw::json_to_card(&json, out);
    every_room(case, &want, CARD_BYTES, call).map_err(|why| format!("{why}: json {}", json.escape_ascii()))
}

/// In each room what is wanted with a full one, or 14 where that does not fit.
fn every_room(case: &mut Case, want: &baseline::Answer, full: usize, call: impl Fn(&mut [u8]) -> Told) -> Compared {
    let lent = lent::noise(&mut case.rng, full);
    let mut out = lent.clone();
    let length = want.bytes.len();
    let too_short = cards::too_short();
    for room in rooms(&mut case.rng, length, full) {
        let got = call(&mut out[..room]);
        let want = if room < length { &too_short } else { want };
        lent::same(want, got, &lent[..room], &out[..room]).map_err(|why| format!("room {room}: {why}"))?;
        // so that the next room finds the noise again
        out[..length.min(room)].copy_from_slice(&lent[..length.min(room)]);
        case.counts.one(lent::class(room, length, full));
    }
    Ok(())
}

/// Every room of a short result; of a long one those near its ends and some between.
fn rooms(rng: &mut Rng, length: usize, full: usize) -> Vec<usize> {
    let mut rooms: Vec<usize> = match length {
        0 => (0..4).map(|_| rng.below(full)).collect(),
        1..=2_000 => (0..=length + 1).collect(),
        _ => (0..20).map(|_| rng.below(length)).chain(length - 10..=length + 1).collect(),
    };
    rooms.retain(|&room| room <= full);
    rooms.extend([0, full]);
    rooms
}
