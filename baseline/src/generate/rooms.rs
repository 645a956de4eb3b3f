//! JSON texts on either side of each room.

use super::Rng;
use crate::limits::{CARD_BYTES, CARD_LINES, JSON_BYTES, LINE_PARAMETERS, LINE_PARAMETER_VALUES};

type Made = (u32, &'static str, fn(&mut Rng) -> Vec<u8>);

/// The number that must come, what stands there, and the text.
pub const ROOMS: [Made; 14] = [
    (0, "a text of 65,536 bytes", |rng| spaced(rng, JSON_BYTES)),
    (3, "a text of 65,537 bytes", |rng| {
        spaced(rng, JSON_BYTES + 1)
    }),
    (3, "3 comes before 11", |rng| no_json_over_room(rng)),
    (0, "a card of 32,768 bytes", |rng| card_of(rng, CARD_BYTES)),
    (3, "a card of 32,769 bytes", |rng| {
        card_of(rng, CARD_BYTES + 1)
    }),
    (0, "a card of 512 lines", |rng| lines(rng, CARD_LINES, "a")),
    (3, "a card of 513 lines", |rng| {
        lines(rng, CARD_LINES + 1, "a")
    }),
    (12, "12 comes before 3", |rng| {
        lines(rng, CARD_LINES + 1, "")
    }),
    (13, "13 comes before 3", |rng| {
        lines(rng, CARD_LINES + 1, "\\u0001")
    }),
    (3, "a kind too long for a card", |_| {
        card(&format!(r#","kind":"{}""#, "a".repeat(CARD_BYTES)))
    }),
    (0, "an entry of 32 parameters", |_| {
        params(LINE_PARAMETERS, 1, "unknown")
    }),
    (12, "an entry of 33 parameters", |rng| match rng.below(2) {
        0 => params(LINE_PARAMETERS + 1, 1, "unknown"),
        _ => params(LINE_PARAMETERS, 1, "text"),
    }),
    (0, "an entry of 64 values", |_| {
        params(1, LINE_PARAMETER_VALUES, "unknown")
    }),
    (12, "an entry of 65 values", |rng| match rng.below(2) {
        0 => params(1, LINE_PARAMETER_VALUES + 1, "unknown"),
        _ => params(1, LINE_PARAMETER_VALUES, "text"),
    }),
];

/// A card whose lines are VERSION, UID, FN and what these members give.
fn card(members: &str) -> Vec<u8> {
    format!(r#"{{"@type":"Card","version":"1.0","uid":"u"{members}}}"#).into_bytes()
}

fn spaced(rng: &mut Rng, bytes: usize) -> Vec<u8> {
    let mut text = card("");
    let at = rng.pick(&[0, 1, text.len() - 1, text.len()]);
    let short = bytes - text.len();
    text.splice(at..at, std::iter::repeat_n(b' ', short));
    text
}

fn no_json_over_room(rng: &mut Rng) -> Vec<u8> {
    vec![rng.pick(b"x{ "); JSON_BYTES + 1 + rng.below(100)]
}

/// The bytes of a card with CR LF ends around its notes: BEGIN, VERSION, UID,
/// the made FN and END.
const AROUND: usize = 13 + 13 + 7 + 18 + 11;
/// `NOTE;PROP-ID=a:`, and a line end.
const NOTE: usize = 15;

/// A card of so many bytes: one long note, and a short one that fills up.
fn card_of(rng: &mut Rng, bytes: usize) -> Vec<u8> {
    let of_short = NOTE + 2;
    let most = bytes - AROUND - of_short;
    let long = (0..most).rev().find(|&long| folded(NOTE + long) <= most);
    let long = long.unwrap_or_default();
    let short = most - folded(NOTE + long);
    let (long, short) = ("x".repeat(long), "y".repeat(short));
    let letter = rng.pick(&["x", "\\u0078", "z"]);
    let long = long.replacen('x', letter, 500);
    card(&format!(
        r#","notes":{{"a":{{"note":"{long}"}},"b":{{"note":"{short}"}}}}"#
    ))
}

/// The bytes of an ASCII line with its folds and its end: 75, then 74 after each
/// line end and space.
fn folded(line: usize) -> usize {
    line + 3 * line.saturating_sub(75).div_ceil(74) + 2
}

/// A card of so many lines; the last entry has that text as its key's value or,
/// where the text is empty, no good key.
fn lines(rng: &mut Rng, count: usize, last: &str) -> Vec<u8> {
    let entries = count - 3;
    let which = if last == "a" { rng.below(3) } else { 0 };
    let members: Vec<String> = (1..=entries)
        .map(|k| line(which, k, last, k == entries))
        .collect();
    let members = members.join(",");
    card(&match which {
        0 => format!(r#","notes":{{{members}}}"#),
        1 => format!(",{members}"),
        _ => format!(r#","vCardProps":[{members}]"#),
    })
}

fn line(which: usize, k: usize, last: &str, is_last: bool) -> String {
    match which {
        0 if is_last && last.is_empty() => r#""":{"note":"a"}"#.to_string(),
        0 if is_last => format!(r#""k{k}":{{"note":"{last}"}}"#),
        0 => format!(r#""k{k}":{{"note":""}}"#),
        1 => format!(r#""k{k}":{k}"#),
        _ => format!(r#"["x{k}",{{}},"unknown",""]"#),
    }
}

/// One kept line with so many parameters of so many values.
fn params(count: usize, values: usize, of_type: &str) -> Vec<u8> {
    let values = vec![r#""v""#; values].join(",");
    let params: Vec<String> = (0..count)
        .map(|k| format!(r#""p{k}":[{values}]"#))
        .collect();
    let params = params.join(",");
    card(&format!(
        r#","vCardProps":[["x",{{"group":"g",{params}}},"{of_type}","v"]]"#
    ))
}
