//! JSON values and a printer that spells them in odd ways.

use super::Rng;
use crate::json::Value;

const NUMBERS: [&str; 9] = [
    "0",
    "-0",
    "1",
    "1.50E+2",
    "1e5",
    "-12.25",
    "100",
    "1E-2",
    "12345678901234567890123",
];

const FRAGMENTS: [&str; 19] = [
    "a", "Ada", "Moss", " ", "é", "😀", ",", ";", ":", "\\", "\n", "\t", "/", "~", "tel:", "+41",
    "^n", "\\n", "\"",
];

const LONG_FRAGMENTS: [&str; 8] = ["a", "bc", "é", "漢", "😀", ",", "\n", " "];

const TROUBLED_FRAGMENTS: [&str; 9] = [
    "\u{1}", "\r", "\u{7f}", "\0", "\u{1f}", "\u{8}", "\u{80}", "\u{2028}", "\u{feff}",
];

/// Any JSON value of that depth at most, for members unknown to 01.
pub fn value(rng: &mut Rng, depth: usize) -> Value {
    match rng.below(if depth == 0 { 6 } else { 9 }) {
        0 => Value::Null,
        1 => Value::Bool(rng.chance(50)),
        2 => number(rng),
        3..=5 => Value::String(string(rng)),
        6 => Value::Array(vec![]),
        7 => Value::Array((0..rng.below(3)).map(|_| value(rng, depth - 1)).collect()),
        _ => {
            let count = rng.below(3);
            let members = (0..count).map(|index| (format!("m{index}"), value(rng, depth - 1)));
            Value::Object(members.collect())
        }
    }
}

fn number(rng: &mut Rng) -> Value {
    Value::Number(rng.pick(&NUMBERS).to_string())
}

/// A string; now and then with what vCard lines have trouble to carry, or so
/// long that its line is folded.
pub fn string(rng: &mut Rng) -> String {
    if rng.chance(4) {
        return (0..50).map(|_| rng.pick(&LONG_FRAGMENTS)).collect();
    }
    let count = rng.pick(&[0, 1, 1, 2, 2, 3, 4]);
    (0..count)
        .map(|_| rng.mostly(98, &FRAGMENTS, &TROUBLED_FRAGMENTS))
        .collect()
}

/// How one text is spelled: the chances of white space and of escapes.
struct Style {
    space: usize,
    escape: usize,
}

pub fn print(rng: &mut Rng, value: &Value) -> String {
    let style = Style {
        space: rng.pick(&[0, 0, 5, 30]),
        escape: rng.pick(&[0, 0, 5, 30]),
    };
    let mut out = String::new();
    space(rng, &style, &mut out);
    print_value(rng, &style, value, &mut out);
    space(rng, &style, &mut out);
    out
}

fn space(rng: &mut Rng, style: &Style, out: &mut String) {
    while rng.chance(style.space) {
        out.push(rng.pick(&[' ', '\n', '\t', '\r']));
    }
}

fn print_value(rng: &mut Rng, style: &Style, value: &Value, out: &mut String) {
    match value {
        Value::Null => out.push_str("null"),
        Value::Bool(flag) => out.push_str(&flag.to_string()),
        Value::Number(spelling) => out.push_str(spelling),
        Value::String(text) => print_string(rng, style, text, out),
        Value::Array(items) => {
            out.push('[');
            space(rng, style, out);
            for (index, item) in items.iter().enumerate() {
                separate(rng, style, index, out);
                print_value(rng, style, item, out);
                space(rng, style, out);
            }
            out.push(']');
        }
        Value::Object(members) => {
            out.push('{');
            space(rng, style, out);
            for (index, (name, value)) in members.iter().enumerate() {
                separate(rng, style, index, out);
                print_string(rng, style, name, out);
                space(rng, style, out);
                out.push(':');
                space(rng, style, out);
                print_value(rng, style, value, out);
                space(rng, style, out);
            }
            out.push('}');
        }
    }
}

/// Puts into a text what spoils its strings, or only looks as if it did.
pub fn blemish(rng: &mut Rng, text: &mut Vec<u8>) {
    const BLEMISHES: [&[u8]; 9] = [
        b"\\ud800",
        b"\\udc00",
        b"\\ud83d\\ude00",
        b"\\ud800\\ud800",
        b"\\ud800\\u00g",
        b"\\u00g0",
        b"\xe0\x80",
        b"\xed\xa0\x80",
        b"\xf0\x9f\x98\x80",
    ];
    let quotes: Vec<usize> = (0..text.len()).filter(|&at| text[at] == b'"').collect();
    if !quotes.is_empty() {
        let after = rng.pick(&quotes) + 1;
        let blemish = rng.pick(&BLEMISHES);
        text.splice(after..after, blemish.iter().copied());
    }
}

fn separate(rng: &mut Rng, style: &Style, index: usize, out: &mut String) {
    if index > 0 {
        out.push(',');
        space(rng, style, out);
    }
}

fn print_string(rng: &mut Rng, style: &Style, text: &str, out: &mut String) {
    out.push('"');
    for character in text.chars() {
        let must_escape = character < ' ' || character == '"' || character == '\\';
        if must_escape || rng.chance(style.escape) {
            print_escape(rng, character, out);
        } else {
            out.push(character);
        }
    }
    out.push('"');
}

fn print_escape(rng: &mut Rng, character: char, out: &mut String) {
    let short = match character {
        '"' | '\\' | '/' => Some(character),
        '\u{8}' => Some('b'),
        '\u{c}' => Some('f'),
        '\n' => Some('n'),
        '\r' => Some('r'),
        '\t' => Some('t'),
        _ => None,
    };
    if let Some(letter) = short.filter(|_| rng.chance(70)) {
        out.extend(['\\', letter]);
        return;
    }
    for unit in character.encode_utf16(&mut [0; 2]) {
        let digits = match rng.chance(50) {
            true => format!("\\u{unit:04x}"),
            false => format!("\\u{unit:04X}"),
        };
        out.push_str(&digits);
    }
}
