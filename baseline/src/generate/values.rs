//! Raw property values.

use super::{json_text, Rng};

const FRAGMENTS: [&str; 26] = [
    "Ada", "Moss", "a", "b", " ", "é", "😀", "\\,", "\\;", "\\n", "\\N", "\\\\", ",", ";", ":",
    "\"", "\t", "^n", "\u{80}", "\u{2028}", "tel:", "+41", "=", "~", "/", "x@y",
];

/// For values over 75 bytes, so that folds fall beside and inside characters.
const LONG_FRAGMENTS: [&str; 8] = ["a", "bc", "é", "漢", "😀", "\\,", "\\n", " "];

const BAD_ESCAPES: [&str; 6] = ["\\", "\\:", "\\t", "\\é", "\\\"", "\\ "];

const NUMBERS: [&str; 14] = [
    "+41 1",
    "tel:+33-01-23",
    "tel:1;ext=5",
    "TEL:1",
    "tel:",
    "tel:1,2",
    "tel:1\\,2",
    "tel:1\\n2",
    "tel:\\\\",
    "1",
    "tel:\\x",
    "te",
    "sip:a",
    "tel:1\t2",
];

const URIS: [&str; 6] = [
    "http://a.example/?q=1,2;3",
    "a\\b",
    "",
    "\\n",
    "urn:x:é",
    "\\",
];

const NAMES: [&str; 14] = [
    "Foo", "Bar", "Foo", "", "Jr.", "M.D.", "a\\,b", "a\\;b", "\\\\", "\\n", "é", "J\\N", ":", "\"",
];

const UNITS: [&str; 9] = [
    "ABC\\, I", "ABC, I", "", "", "North", "a\\;b", "\\\\", "\\n", "é",
];

/// JSON in odd spellings, and what is nearly JSON.
const ODD_JSON: [&str; 33] = [
    "1",
    " 1 ",
    "01",
    "1.50E+2",
    "-0",
    "-",
    "1e5",
    "1.",
    ".5",
    "true",
    "tru",
    "null",
    "[1,]",
    "[1,2]",
    "{\"a\":1,\"a\":2}",
    "{\"a\":1,\"\\u0061\":2}",
    "{\"a\":{\"b\":[]}}",
    "{\"a\":1,}",
    "\"\\ud800\"",
    "\"\\ud83d\\ude00\"",
    "\"\\u0041\\/\"",
    "\"\\u007f\\u0000\"",
    "\"a;b\"",
    "",
    " ",
    "\"a\tb\"",
    "[ ]",
    "{ }",
    "[\n1\n]",
    "\"é\\n\"",
    "\"\\x\"",
    "1 2",
    "[\"\\\\\"]",
];

/// A TEXT, escapes mostly good; now and then a long one.
pub fn text(rng: &mut Rng) -> String {
    let raw: String = match rng.chance(5) {
        true => (0..60).map(|_| rng.pick(&LONG_FRAGMENTS)).collect(),
        false => (0..rng.below(5)).map(|_| rng.pick(&FRAGMENTS)).collect(),
    };
    raw + bad_escape(rng)
}

fn bad_escape(rng: &mut Rng) -> &'static str {
    match rng.chance(3) {
        true => rng.pick(&BAD_ESCAPES),
        false => "",
    }
}

/// A nickname seldom has a bare comma.
pub fn nickname(rng: &mut Rng) -> String {
    let raw = text(rng);
    match rng.chance(80) {
        true => raw.replace("\\,", "c").replace(',', "\\,"),
        false => raw,
    }
}

pub fn number(rng: &mut Rng) -> String {
    match rng.chance(85) {
        true => rng.pick(&NUMBERS).to_string(),
        false => text(rng),
    }
}

pub fn uri(rng: &mut Rng) -> String {
    rng.pick(&URIS).to_string()
}

/// One to nine parts, from few names so that they meet in several parts.
pub fn name(rng: &mut Rng) -> String {
    let count = rng.pick(&[1, 2, 3, 5, 6, 6, 7, 7, 7, 7, 7, 7, 8, 9]);
    let parts: Vec<String> = (0..count).map(|_| name_part(rng)).collect();
    parts.join(";") + bad_escape(rng)
}

fn name_part(rng: &mut Rng) -> String {
    let count = rng.pick(&[0, 1, 1, 1, 2, 3]);
    let values: Vec<&str> = (0..count).map(|_| rng.pick(&NAMES)).collect();
    values.join(",")
}

pub fn organization(rng: &mut Rng) -> String {
    let parts: Vec<&str> = (0..1 + rng.below(4)).map(|_| rng.pick(&UNITS)).collect();
    parts.join(";") + bad_escape(rng)
}

/// JSON as TEXT; its commas are escaped or bare, its backslashes escaped.
pub fn json(rng: &mut Rng) -> String {
    let json = match rng.below(10) {
        0..=4 => {
            let value = json_text::value(rng, 3);
            json_text::print(rng, &value)
        }
        5 => nested(rng.pick(&[14, 15, 15, 16])),
        _ => rng.pick(&ODD_JSON).to_string(),
    };
    let json = json.replace('\\', "\\\\").replace('\n', "\\n");
    match rng.chance(60) {
        true => json.replace(',', "\\,"),
        false => json,
    }
}

fn nested(depth: usize) -> String {
    format!("{}{}", "[".repeat(depth), "]".repeat(depth))
}
