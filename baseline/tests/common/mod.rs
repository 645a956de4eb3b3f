//! Short spellings: in cards `|` is LF and a line `V` is
//! VERSION:4.0, BEGIN and END left out; in JSON `{..` is the start of a card.

#![allow(dead_code)]

use thymebarrel_baseline::limits::{CARD_BYTES, JSON_BYTES};
use thymebarrel_baseline::{card_to_json, json_to_card, Answer};

pub const JSON_START: &str = r#"{"@type":"Card","version":"1.0","uid":"u","#;

/// What an input should give.
pub enum Gives {
    /// The number and the place.
    Refusal(u32, usize),
    /// The whole result, but for its beginning, which all results share.
    Result(&'static str),
    /// Accepted, whatever the result.
    Something,
}

pub fn show(bytes: &[u8]) -> String {
    String::from_utf8_lossy(bytes).into_owned()
}

pub fn card(body: &str) -> Vec<u8> {
    let lines: Vec<&str> = body
        .split('|')
        .map(|line| if line == "V" { "VERSION:4.0" } else { line })
        .collect();
    format!("BEGIN:VCARD\n{}\nEND:VCARD\n", lines.join("\n")).into_bytes()
}

pub fn json(text: &str) -> Vec<u8> {
    let alone = format!("{}}}", JSON_START.trim_end_matches(','));
    text.replace("{..}", &alone)
        .replace("{..", JSON_START)
        .into_bytes()
}

pub fn to_json(card: &[u8]) -> Answer {
    card_to_json(card, b"reg", 1, JSON_BYTES)
}

pub fn to_card(json: &[u8]) -> Answer {
    json_to_card(json, CARD_BYTES)
}

/// The JSON after its uid, which is reg-1 or u.
pub fn rest_of_json(bytes: &[u8]) -> String {
    let text = show(bytes);
    let start = r#"{"@type":"Card","version":"1.0","uid":""#;
    let rest = text.strip_prefix(start).expect("a JSON card");
    match rest.strip_prefix("reg-1\",") {
        Some(rest) => rest.to_string(),
        None => rest.to_string(),
    }
}

/// The lines of a written card after its UID, which is reg-1 or u, joined by
/// `|`.
pub fn rest_of_card(bytes: &[u8]) -> String {
    let text = show(bytes).replace("\r\n", "|");
    let body = text
        .strip_prefix("BEGIN:VCARD|VERSION:4.0|UID:")
        .and_then(|rest| rest.strip_suffix("|END:VCARD|"))
        .expect("a card as 01 writes it");
    let (_, rest) = body.split_once('|').expect("an FN line");
    rest.to_string()
}

pub fn assert_gives(answer: &Answer, gives: &Gives, rest: fn(&[u8]) -> String, what: &str) {
    match gives {
        Gives::Refusal(number, place) => {
            assert_eq!((answer.number, answer.place), (*number, *place), "{what}");
            assert!(answer.bytes.is_empty(), "{what}");
        }
        Gives::Result(expected) => {
            assert_eq!((answer.number, answer.place), (0, 0), "{what}");
            assert_eq!(rest(&answer.bytes), *expected, "{what}");
        }
        Gives::Something => assert_eq!((answer.number, answer.place), (0, 0), "{what}"),
    }
}
