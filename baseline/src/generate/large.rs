//! Inputs at the edges of the rooms.

use super::Rng;
use crate::limits::{CARD_BYTES, CARD_LINES, JSON_BYTES};

const START: &str = r#"{"@type":"Card","version":"1.0","uid":"u","#;
const KEPT: &str = r#"["x",{},"unknown",""]"#;

/// A card near 32,768 bytes or 512 lines, or one with a JSON near 65,536.
pub fn large_card(rng: &mut Rng) -> Vec<u8> {
    let kept_lines = match rng.below(3) {
        0 => CARD_LINES - 4 + rng.below(4),
        1 => rng.below(330),
        _ => 0,
    };
    let bytes = match rng.below(4) {
        0 => rng.below(CARD_BYTES),
        _ => CARD_BYTES - 3 + rng.below(5),
    };
    // Quotes are doubled in JSON; commas in the normal card.
    let filler = rng.pick(&["\"", ",", "a", "\\\\", "é", "\t"]);
    let head = format!(
        "BEGIN:VCARD\nVERSION:4.0\nFN:a\n{}NOTE:",
        "X:\n".repeat(kept_lines)
    );
    fill(head, filler, "\nEND:VCARD\n", bytes)
}

/// A JSON card near 65,536 bytes, or one whose card is near 32,768, or whose
/// way back is over its room.
pub fn large_json(rng: &mut Rng) -> Vec<u8> {
    if rng.chance(30) {
        return json_that_grows(rng);
    }
    let (head, tail) = rng.pick(&[
        (r#""notes":{"a":{"note":""#, r#""}}}"#),
        (r#""titles":{"a":{"name":""#, r#""}}}"#),
        (r#""a":[""#, r#""]}"#),
        (r#""kind":""#, r#""}"#),
        (r#""vCardProps":["#, r#"["y",{},"unknown",""]]}"#),
    ]);
    let filler = match head.ends_with('[') {
        true => format!("{KEPT},"),
        false => rng.pick(&["a", "\\u0061", "\u{7f}", ",", "é"]).to_string(),
    };
    let near = rng.pick(&[10_000, 31_400, 33_000, JSON_BYTES - 2, JSON_BYTES]);
    fill(
        format!("{START}{head}"),
        &filler,
        tail,
        near + rng.below(300),
    )
}

/// Each missing title kind adds 15 bytes on the way back. Quotes and kept
/// lines make a long JSON of a short card.
fn json_that_grows(rng: &mut Rng) -> Vec<u8> {
    let titles: Vec<String> = (0..100)
        .map(|key| format!(r#""k{key}":{{"name":""}}"#))
        .collect();
    let titles = titles.join(",");
    let kept = vec![KEPT; 300].join(",");
    let head =
        format!(r#"{START}"titles":{{{titles}}},"vCardProps":[{kept}],"notes":{{"k":{{"note":""#);
    let bytes = JSON_BYTES - 100 * 15 - 20 + rng.below(40);
    fill(head, "\\\"", r#""}}}"#, bytes)
}

/// As many fillers as fit into that many bytes.
fn fill(head: String, filler: &str, tail: &str, bytes: usize) -> Vec<u8> {
    let used = head.len() + tail.len();
    let count = bytes.saturating_sub(used) / filler.len();
    (head + &filler.repeat(count) + tail).into_bytes()
}
