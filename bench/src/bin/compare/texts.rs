//! JSON to card, and cards taken out and home again.

use crate::counts::{at_each_byte, at_no_place};
use crate::raw::Told;
use crate::{cards, lent, raw, Case, Compared};
use std::sync::OnceLock;
use thymebarrel::{CARD_BYTES, JSON_BYTES};
use thymebarrel_baseline as baseline;
use thymebarrel_baseline::generate::{self, Cause, Rng};

pub fn must() -> Vec<String> {
    let mut must = at_no_place(&[0, 3, 12, 13, 14]);
    must.extend(at_each_byte());
    must.extend(lent::CLASSES.map(String::from));
    must
}

pub fn must_at_home() -> Vec<String> {
    at_no_place(&[0, 3, 14])
}

pub fn compare(case: &mut Case) -> Compared {
    let json = any_text(&mut case.rng);
    let (number, place, _) = to_card(case, &json)?;
    case.counts.json_answer(number, place, json.len());
    Ok(())
}

/// A text as they come: cards and others, whole and damaged; now and then one near
/// the rooms, damaged or not, or JSON that is no object.
pub fn any_text(rng: &mut Rng) -> Vec<u8> {
    match rng.below(300) {
        0 => generate::large_json(rng),
        1 => {
            let mut json = generate::large_json(rng);
            generate::damage(rng, &mut json);
            json
        }
        2 => no_object(rng),
        _ => generate::json(rng),
    }
}

fn no_object(rng: &mut Rng) -> Vec<u8> {
    match rng.chance(50) {
        true => [&b"["[..], &generate::json(rng), b"]"].concat(),
        false => rng.pick(&["1", " null ", "true", "[]", "\"{}\"", "-0.5e3"]).as_bytes().to_vec(),
    }
}

fn causes() -> &'static [Cause] {
    static CAUSES: OnceLock<Vec<Cause>> = OnceLock::new();
    CAUSES.get_or_init(generate::causes)
}

fn told(cause: &Cause) -> String {
    format!("{} {}:", cause.number, cause.name)
}

/// What a run of causes must have told: all of them.
pub fn all_causes() -> Vec<String> {
    causes().iter().map(told).collect()
}

/// A text whose number is known from 01: with room enough, that number must come.
pub fn compare_cause(case: &mut Case) -> Compared {
    let cause = &causes()[case.rng.below(causes().len())];
    let json = cause.text(&mut case.rng);
    let (got, ..) = raw::json_to_card(&json, &mut vec![0; CARD_BYTES]);
    if got != cause.number {
        return Err(format!("{}: {got} for {}", told(cause), json.escape_ascii()));
    }
    to_card(case, &json)?;
    case.counts.one(told(cause));
    Ok(())
}

/// Number, place, length, every byte of the lent output; and what is written comes
/// back as the JSON's normal form.
fn to_card(case: &mut Case, json: &[u8]) -> Result<Told, String> {
    let full = baseline::json_to_card(json, CARD_BYTES);
    let needed = full.bytes.len();
    let room = lent::room(&mut case.rng, needed, CARD_BYTES);
    let want = if room < needed { cards::too_short() } else { full };
    let lent = lent::noise(&mut case.rng, room);
    let mut out = lent.clone();
    let got = raw::json_to_card(json, &mut out);
    case.counts.one(lent::class(room, needed, CARD_BYTES));
    lent::same(&want, got, &lent, &out).map_err(|why| format!("room {room} json {}: {why}", json.escape_ascii()))?;
    if let (0, _, length) = got {
        let normal = baseline::normal_json(json);
        let back = thymebarrel::card_to_json(b"any", 7, &out[..length]);
        comes(back, normal, JSON_BYTES).map_err(|why| format!("back from json {}: {why}", json.escape_ascii()))?;
    }
    Ok(got)
}

/// A card that converts, to JSON and home again: by each step what the baseline
/// gives, and at the end the card's normal form, or 3 where that has no room.
pub fn compare_home(case: &mut Case) -> Compared {
    let rng = &mut case.rng;
    let card = cards::any_card(rng);
    let (stem, number) = (generate::good_stem(rng), 1 + rng.below(999_999));
    let want = baseline::card_to_json(&card, &stem, number as u64, JSON_BYTES);
    if want.number != 0 {
        return compare_home(case);
    }
    let json = want.bytes;
    comes(thymebarrel::card_to_json(&stem, number, &card), json.clone(), JSON_BYTES).map_err(|why| format!("out of card {}: {why}", card.escape_ascii()))?;
    let (got, place, _) = to_card(case, &json)?;
    case.counts.card_answer(got, place);
    let normal = baseline::normal_card(&card, &stem, number as u64);
    let lines = normal.split(|&byte| byte == b'\n').filter(|line| !line.is_empty() && line[0] != b' ').count() - 2;
    let most = if lines > baseline::limits::CARD_LINES { 0 } else { CARD_BYTES };
    comes(thymebarrel::json_to_card(&json), normal, most).map_err(|why| format!("home from card {}: {why}", card.escape_ascii()))
}

/// The normal form, or 3 where it is longer than the room.
fn comes(got: Result<String, thymebarrel::Refusal>, normal: Vec<u8>, most: usize) -> Result<(), String> {
    let got = got.map(String::into_bytes).map_err(|refusal| (refusal.number, refusal.place));
    let want = if normal.len() > most { Err((3, 0)) } else { Ok(normal) };
    match got == want {
        true => Ok(()),
        false => Err(format!("{} against {}", shown(&want), shown(&got))),
    }
}

fn shown(answer: &Result<Vec<u8>, (u8, usize)>) -> String {
    match answer {
        Ok(bytes) => bytes.escape_ascii().to_string(),
        Err((number, place)) => format!("{number} at {place}"),
    }
}
