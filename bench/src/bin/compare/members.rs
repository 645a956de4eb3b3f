//! The look-up.

use crate::{texts, Case, Compared};
use thymebarrel::JSON_BYTES;
use thymebarrel_baseline as baseline;
use thymebarrel_baseline::generate;

const FOUND: [&str; 6] = ["found: a string", "found: an object", "found: an array", "found: a number", "found: true or false", "found: null"];
const NOTHING: [&str; 4] = ["nothing: over the room", "nothing: no JSON", "nothing: no object", "nothing: no such member"];

pub fn must() -> Vec<String> {
    FOUND.iter().chain(&NOTHING).map(|what| what.to_string()).collect()
}

/// The same bytes, at the same place of the caller's text.
pub fn compare(case: &mut Case) -> Compared {
    let rng = &mut case.rng;
    let json = texts::any_text(rng);
    let name = generate::member_name(rng, &json);
    let want = baseline::look_up(&json, &name);
    let got = thymebarrel::member(&json, &name).unwrap_or_default().as_bytes();
    let same_place = want.is_empty() || want.as_ptr() == got.as_ptr();
    if want != got || !same_place {
        let (name, json) = (name.escape_ascii(), json.escape_ascii());
        return Err(format!("{name} in {json}: {} against {}", want.escape_ascii(), got.escape_ascii()));
    }
    case.counts.one(class(&json, got));
    Ok(())
}

fn class(json: &[u8], found: &[u8]) -> &'static str {
    match found.first() {
        Some(b'"') => FOUND[0],
        Some(b'{') => FOUND[1],
        Some(b'[') => FOUND[2],
        Some(b't' | b'f') => FOUND[4],
        Some(b'n') => FOUND[5],
        Some(_) => FOUND[3],
        None => why_nothing(json),
    }
}

/// By what JSON to card says of the text: 3 and 11 are sought there as here.
fn why_nothing(json: &[u8]) -> &'static str {
    let number = baseline::json_to_card(json, JSON_BYTES).number;
    let is_object = json.iter().find(|byte| !byte.is_ascii_whitespace()) == Some(&b'{');
    match number {
        3 if json.len() > JSON_BYTES => NOTHING[0],
        11 => NOTHING[1],
        _ if !is_object => NOTHING[2],
        _ => NOTHING[3],
    }
}
