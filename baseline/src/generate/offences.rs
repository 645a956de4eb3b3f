//! Single offences against refusals 4 to 10, each put into an accepted card.

use super::Rng;

const BAD_BYTES: [&[u8]; 8] = [
    b"\x00",
    b"\x7f",
    b"\r",
    b"\x1f",
    b"\xc3",
    b"\xed\xa0\x80",
    b"\xc0\x80",
    b"\xff",
];

const BAD_VERSIONS: [&str; 5] = [
    "VERSION:3.0",
    "VERSION:4.0 ",
    "a.VERSION:4.0",
    "VERSION;X=1:4.0",
    "VERSION: 4.0",
];

const OFF_GRAMMAR: [&str; 16] = [
    "",
    "X",
    "X_Y:v",
    ".X:v",
    "a.b.c:v",
    "X;P:v",
    "X;P=\"a\"b:v",
    "X;P=a\"b:v",
    "TEL;HOME:1",
    "begin:VCARD",
    "a.end:x",
    "END:VCARD ",
    ":v",
    "X ;A=1:v",
    "X;A=1;:v",
    "é:v",
];

const BAD_PARAMETERS: [&str; 13] = [
    "a.UID:u",
    "UID;X=1:u",
    "UID;VALUE=text:u",
    "UID;VALUE=unknown:u",
    "a.KIND:org",
    "KIND;VALUE=text:org",
    "X;GROUP=a:v",
    "X;group=:v",
    "X;VALUE=a,b:v",
    "X;VALUE=a;VALUE=a:v",
    "X;VALUE=:v",
    "X;VALUE=\"a b\":v",
    "UID;VALUE=uri,uri:u",
];

const SECONDS: [[&str; 2]; 5] = [
    ["VERSION:4.0", "X:"],
    ["a.VERSION:9", "VERSION;X=1:9"],
    ["UID:u", "uid:v"],
    ["UID:u", "UID;VALUE=uri:u"],
    ["KIND:org", "KIND:org"],
];

const BAD_VALUES: [&str; 6] = [
    "UID:",
    "KIND:",
    "KIND:a b",
    "KIND:a\\,b",
    "KIND:a_b",
    "UID;VALUE=uri:",
];

pub fn commit(rng: &mut Rng, lines: &mut Vec<Vec<u8>>) {
    match rng.below(9) {
        0 => bad_bytes(rng, lines),
        1 => lines.retain(|line| !is_fn(line)),
        2 if rng.chance(30) => drop(lines.remove(0)),
        2 => lines[0] = rng.pick(&BAD_VERSIONS).as_bytes().to_vec(),
        _ => {
            for line in bad_lines(rng) {
                insert(rng, lines, &line);
            }
        }
    }
}

fn bad_lines(rng: &mut Rng) -> Vec<String> {
    let line = match rng.below(6) {
        0 => return rng.pick(&SECONDS).map(str::to_string).to_vec(),
        1 => params_at_the_count(rng.below(4)),
        2 => rng.pick(&OFF_GRAMMAR).to_string(),
        3 => rng.pick(&BAD_VALUES).to_string(),
        _ => rng.pick(&BAD_PARAMETERS).to_string(),
    };
    vec![line]
}

/// Anywhere after the first line.
fn insert(rng: &mut Rng, lines: &mut Vec<Vec<u8>>, line: &str) {
    let at = 1 + rng.below(lines.len());
    lines.insert(at, line.as_bytes().to_vec());
}

fn bad_bytes(rng: &mut Rng, lines: &mut [Vec<u8>]) {
    let bytes = rng.pick(&BAD_BYTES);
    let index = rng.below(lines.len());
    let at = rng.below(lines[index].len() + 1);
    lines[index].splice(at..at, bytes.iter().copied());
}

fn is_fn(line: &[u8]) -> bool {
    let mut parts = line.split(|byte| b".;:".contains(byte)).take(2);
    parts.any(|part| part.eq_ignore_ascii_case(b"FN"))
}

/// A line with as many parameters or values as allowed, or one more.
fn params_at_the_count(which: usize) -> String {
    let values = |count: usize| vec!["1"; count].join(",");
    match which {
        0 => format!("X{}:v", ";A=".repeat(32)),
        1 => format!("X{}:v", ";A=".repeat(33)),
        2 => format!("X;A={}:v", values(64)),
        _ => format!("X;A={};B={}:v", values(40), values(25)),
    }
}
