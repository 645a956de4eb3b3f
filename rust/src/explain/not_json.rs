//! Refusal 11: where the JSON ends to be JSON, and why where that shows.

use super::path::{Fault, Path};
use super::shown::with_caret;
use super::tree::{self, Value};
use super::Explanation;
use crate::Reason;
use std::collections::HashSet;

const DEPTH: usize = 16;

pub fn explain(json: &[u8], place: usize) -> Explanation {
    let told = match place {
        0 => beginning(json).or_else(|| pair_or_names(json)),
        1 => beginning(json),
        _ => None,
    };
    told.unwrap_or_else(|| at(json, place))
}

/// What the first bytes show: a file of another kind.
fn beginning(json: &[u8]) -> Option<Explanation> {
    let (what, advice) = match json {
        [] => (
            "The text is empty.",
            "Look whether the program before it wrote anything.",
        ),
        [0xef, 0xbb, 0xbf, ..] => (
            "The text begins with a byte order mark, which JSON does not have.",
            "Take its three bytes away: the command does so with --skip-bom.",
        ),
        [0xff, 0xfe, ..] | [0xfe, 0xff, ..] | [b'{' | b'[', 0, ..] | [0, b'{' | b'[', ..] => {
            ("This is UTF-16.", "Save the JSON as UTF-8.")
        }
        [b'B' | b'b', ..] if json[..json.len().min(11)].eq_ignore_ascii_case(b"BEGIN:VCARD") => (
            "This is a vCard, not JSON.",
            "Use thymebarrel json, card_to_json in a program.",
        ),
        _ => return None,
    };
    Some(Explanation::new(what, advice))
}

/// Place 0 of a text that is JSON otherwise: half a surrogate pair, or equal names.
fn pair_or_names(json: &[u8]) -> Option<Explanation> {
    let read = tree::read(json)?;
    if let Some(half) = read.half {
        let what = "A string has half a surrogate pair.";
        let advice = "Write both halves, or the character itself.";
        return Some(Explanation::new(what, advice).placed(position(json, half)));
    }
    let fault = equal_names(&Path::default(), &read.value)?;
    let advice = "Take one of the two out, or give it another name.";
    Some(Explanation::of_member(&fault, advice))
}

fn equal_names(path: &Path, value: &Value) -> Option<Fault> {
    match value {
        Value::Array(items) => items
            .iter()
            .enumerate()
            .find_map(|(k, item)| equal_names(&path.index(k), item)),
        Value::Object(members) => {
            let mut names = HashSet::new();
            let twice = members.iter().find(|(name, _)| !names.insert(name));
            let twice = twice.map(|(name, _)| Fault::at(path.name(name), "is there twice"));
            twice.or_else(|| {
                members
                    .iter()
                    .find_map(|(name, value)| equal_names(&path.name(name), value))
            })
        }
        _ => None,
    }
}

/// The line of the place, with a caret under its byte.
fn at(json: &[u8], place: usize) -> Explanation {
    let place = place.min(json.len());
    let advice = match place == json.len() {
        true => "Look whether its end was cut off.",
        false => "Mend the JSON at this byte.",
    };
    Explanation::new(cause(json, place), advice).placed(position(json, place))
}

fn cause(json: &[u8], place: usize) -> &'static str {
    let mark = |b: &&u8| !b" \t\r\n".contains(b);
    let last = json[..place].iter().rev().find(mark);
    let Some(depth) = depth(&json[..place]) else {
        return in_string(json, place);
    };
    match &json[place..] {
        [] => "The JSON stops short.",
        [b'[' | b'{', ..] if depth >= DEPTH => {
            "Objects and arrays within each other are deeper than 16."
        }
        [b'}' | b']', ..] if last == Some(&b',') => "A comma stands before the closing bracket.",
        [b'\'', ..] => "JSON has double quotes, not single ones.",
        [b'/', b'/' | b'*', ..] => "JSON has no comments.",
        _ => Reason::NotJson.meaning(),
    }
}

fn in_string(json: &[u8], place: usize) -> &'static str {
    match json.get(place) {
        None => "The JSON stops short, within a string.",
        Some(0..=31) => "A string has a control character, which JSON writes as an escape.",
        Some(_) if json[..place].ends_with(b"\\") => "JSON has no such escape.",
        Some(128..) => "A string is not UTF-8.",
        _ => Reason::NotJson.meaning(),
    }
}

/// How many objects and arrays are open after this part of a text that is JSON so far;
/// none where a string is.
fn depth(before: &[u8]) -> Option<usize> {
    let (mut open, mut in_string, mut escaped) = (0usize, false, false);
    for b in before {
        match b {
            _ if escaped => escaped = false,
            b'\\' if in_string => escaped = true,
            b'"' => in_string = !in_string,
            b'[' | b'{' if !in_string => open += 1,
            b']' | b'}' if !in_string => open = open.saturating_sub(1),
            _ => {}
        }
    }
    (!in_string).then_some(open)
}

fn position(json: &[u8], place: usize) -> Vec<String> {
    let start = json[..place]
        .iter()
        .rposition(|b| *b == b'\n')
        .map_or(0, |k| k + 1);
    let end = json[place..]
        .iter()
        .position(|b| *b == b'\n')
        .map_or(json.len(), |k| place + k);
    let line = json[..start].iter().filter(|b| **b == b'\n').count() + 1;
    let column = String::from_utf8_lossy(&json[start..place]).chars().count() + 1;
    let [shown, caret] = with_caret(&json[start..end], place - start);
    vec![
        format!("byte {place} (line {line}, column {column}):"),
        format!("  {shown}"),
        format!("  {caret}"),
    ]
}
