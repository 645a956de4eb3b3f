//! N, and the FN made from it.

use super::spelling::{respell, Semicolon};
use crate::line::{Line, Param};
use crate::text;

/// The values of N's seven parts, in the writer's spelling.
pub type Parts = [Vec<String>; 7];

/// N's values, respelled, by part, without empty ones. The family values that
/// are also secondary surnames, and the suffixes that are also generations, are
/// left out here: `write_parts` puts them back once.
pub fn read_parts(raw: &str) -> Option<Parts> {
    let mut parts = Parts::default();
    let pieces = text::split(raw, ';');
    for (index, piece) in pieces.into_iter().enumerate() {
        let part = parts.get_mut(index)?;
        for value in text::split(piece, ',') {
            part.push(respell(value, Semicolon::Escaped)?);
        }
        part.retain(|value| !value.is_empty());
    }
    let [family, _, _, _, suffixes, surname2, generation] = &mut parts;
    family.retain(|value| !surname2.contains(value));
    suffixes.retain(|value| !generation.contains(value));
    let is_empty = parts.iter().all(Vec::is_empty);
    (!is_empty).then_some(parts)
}

pub fn write_parts(parts: Parts) -> String {
    let [mut family, given, given2, prefixes, mut suffixes, surname2, generation] = parts;
    family.extend_from_slice(&surname2);
    suffixes.extend_from_slice(&generation);
    let parts = [
        family, given, given2, prefixes, suffixes, surname2, generation,
    ];
    parts.map(|values| values.join(",")).join(";")
}

/// The FN that stands in for a missing one. Its semicolons are bare.
pub fn derived_full(name: &Option<Parts>) -> Line {
    let values: Vec<&str> = name
        .iter()
        .flatten()
        .flatten()
        .map(String::as_str)
        .collect();
    let joined = respell(&values.join(" "), Semicolon::Bare).unwrap_or_default();
    let mut line = Line::bare("FN", joined);
    line.params.push(Param::one("DERIVED", "TRUE"));
    line
}
