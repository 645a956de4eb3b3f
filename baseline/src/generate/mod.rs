//! Inputs near the edges of the rules, made from a seed: most of them are
//! accepted, so that the interesting paths are reached; a good share is odd or
//! damaged.

mod causes;
mod damage;
mod json_cards;
mod json_entries;
mod json_text;
mod kept_entries;
mod known;
mod large;
mod layout;
mod lines;
mod offences;
mod params;
mod rng;
mod rooms;
mod spoil;
mod streams;
mod tree;
mod values;

pub use causes::causes;
pub use damage::damage;
pub use known::Cause;
pub use large::{large_card, large_json};
pub use rng::Rng;
pub use streams::{stream, Step};

/// A card, mostly under 400 bytes.
pub fn card(rng: &mut Rng) -> Vec<u8> {
    let mut lines = lines::card_lines(rng);
    if rng.chance(15) {
        offences::commit(rng, &mut lines);
    }
    let mut card = layout::lay_out(rng, &lines);
    if rng.chance(8) {
        damage::damage(rng, &mut card);
    }
    card
}

/// A JSON text that mostly is a card, mostly under 500 bytes.
pub fn json(rng: &mut Rng) -> Vec<u8> {
    let mut tree = if rng.chance(35) {
        json_cards::from_card(rng)
    } else {
        json_cards::card_tree(rng)
    };
    if rng.chance(15) {
        spoil::spoil(rng, &mut tree);
    }
    let mut text = json_text::print(rng, &tree).into_bytes();
    if rng.chance(3) {
        json_text::blemish(rng, &mut text);
    }
    if rng.chance(6) {
        damage::damage(rng, &mut text);
    }
    text
}

/// A stem; now and then an invalid one, or one of the longest.
pub fn stem(rng: &mut Rng) -> Vec<u8> {
    match rng.below(150) {
        0 => b"".to_vec(),
        1 => b"a.b".to_vec(),
        2 => "é".as_bytes().to_vec(),
        3 => vec![b'a'; 201],
        4 => vec![b'Z'; 200],
        _ => good_stem(rng),
    }
}

pub fn good_stem(rng: &mut Rng) -> Vec<u8> {
    rng.pick(&["reg", "a", "urn:x", "A_b-9", ":", "-"])
        .as_bytes()
        .to_vec()
}

/// A card number; now and then an invalid one.
pub fn number(rng: &mut Rng) -> u64 {
    match rng.below(120) {
        0 => 0,
        1 => 1_000_000,
        2 => u64::MAX,
        3 => 999_999,
        _ => 1 + rng.below(12) as u64,
    }
}

/// A name to look up in a JSON text.
pub fn member_name(rng: &mut Rng, json: &[u8]) -> Vec<u8> {
    let usual = ["uid", "", "name", "a", "phones", "a/b", "é", "vCardProps"];
    let names: Vec<String> = match crate::json::read(json, 16) {
        Ok(document) => {
            let members = document.value.as_object().unwrap_or_default();
            members.iter().map(|(name, _)| name.clone()).collect()
        }
        Err(_) => Vec::new(),
    };
    if names.is_empty() || rng.chance(25) {
        return rng.pick(&usual).as_bytes().to_vec();
    }
    rng.pick(&names).as_bytes().to_vec()
}
