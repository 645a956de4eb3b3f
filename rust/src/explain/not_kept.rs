//! Refusal 12 in vCardProps: which entry no kept line in its place gives. What may be
//! kept turns on all that stands before it, so the library is asked: the first entry
//! without which the card is not refused 12 is the one.

use super::path::{Fault, Path};
use super::shape::string;
use super::shown::quoted;
use super::tree::Value;
use super::write::write;
use crate::Reason;

const PARAMETERS: usize = 32;
const VALUES: usize = 64;

/// The first fault of vCardProps, where nothing before it is refused 12.
pub fn fault(card: &Value) -> Option<Fault> {
    let entries = card.get("vCardProps")?.array()?;
    if is_refused(card, 0) || !is_refused(card, entries.len()) {
        return None;
    }
    // with the first `good` entries it is not refused 12, with the first `bad` it is
    let (mut good, mut bad) = (0, entries.len());
    while good + 1 < bad {
        let middle = (good + bad) / 2;
        match is_refused(card, middle) {
            true => bad = middle,
            false => good = middle,
        }
    }
    let path = Path::default().name("vCardProps").index(good);
    let would = "is a line that would not be kept where it stands";
    entry(&path, &entries[good]).or_else(|| Some(Fault::at(path, would)))
}

/// Whether the card with only so many of its kept lines is refused 12.
fn is_refused(card: &Value, entries: usize) -> bool {
    let Value::Object(members) = card else {
        return false;
    };
    let mut members = members.clone();
    for (name, value) in &mut members {
        if let (true, Value::Array(all)) = (name == "vCardProps", value) {
            all.truncate(entries);
        }
    }
    let mut json = String::new();
    write(&Value::Object(members), &mut json);
    let answer = crate::json_to_card(&json);
    answer.is_err_and(|refusal| refusal.reason() == Some(Reason::NotACard))
}

/// What is wrong with the shape of an entry.
fn entry(path: &Path, value: &Value) -> Option<Fault> {
    let Some([name, parameters, kind, text]) = value.array() else {
        return Some(Fault::at(
            path.clone(),
            "is not [\"name\", {parameters}, \"type\", \"value\"]",
        ));
    };
    let never = |name: &str| ["begin", "end", "version", "uid", "kind"].contains(&name);
    let named = match name.text() {
        Some(name) if never(name) => Some(Fault::at(
            path.index(0),
            format!("is {}, a line that is never kept", quoted(name)),
        )),
        _ => small_name(&path.index(0), name),
    };
    named
        .or_else(|| parameter_list(&path.index(1), parameters))
        .or_else(|| small_name(&path.index(2), kind))
        .or_else(|| string(&path.index(3), text))
        .or_else(|| counts(path, parameters, kind))
}

fn parameter_list(path: &Path, value: &Value) -> Option<Fault> {
    let Some(members) = value.object() else {
        return Some(Fault::at(
            path.clone(),
            format!("is {}: it must be an object", value.kind()),
        ));
    };
    members
        .iter()
        .find_map(|(name, value)| parameter(&path.name(name), name, value))
}

fn parameter(path: &Path, name: &str, value: &Value) -> Option<Fault> {
    let values = match value {
        Value::Array(values) => values.as_slice(),
        one => std::slice::from_ref(one),
    };
    if name == "value" || !is_small_name(name) {
        return Some(Fault::at(
            path.clone(),
            "is no parameter: names have small letters, digits and hyphens, and VALUE goes third",
        ));
    }
    if values.is_empty() {
        return Some(Fault::at(path.clone(), "is an empty array"));
    }
    if let Some(fault) = values.iter().find_map(|value| string(path, value)) {
        return Some(fault);
    }
    let group = |values: &[Value]| matches!(values, [Value::Text(group)] if is_small_name(group));
    (name == "group" && !group(values)).then(|| {
        Fault::at(
            path.clone(),
            "is no group: one name of small letters, digits and hyphens",
        )
    })
}

fn counts(path: &Path, parameters: &Value, kind: &Value) -> Option<Fault> {
    let members = parameters.object().unwrap_or_default();
    let members = members.iter().filter(|(name, _)| name != "group");
    let typed = usize::from(kind.text() != Some("unknown"));
    let values = members
        .clone()
        .map(|(_, value)| value.array().map_or(1, <[Value]>::len));
    let over = members.count() + typed > PARAMETERS || values.sum::<usize>() + typed > VALUES;
    over.then(|| {
        Fault::at(
            path.clone(),
            "has over 32 parameters or 64 values, its type counted",
        )
    })
}

fn small_name(path: &Path, value: &Value) -> Option<Fault> {
    let what = |text: &str| {
        format!(
            "is {}: it must be a name of small letters, digits and hyphens",
            quoted(text)
        )
    };
    match value.text() {
        Some(text) => (!is_small_name(text)).then(|| Fault::at(path.clone(), what(text))),
        None => string(path, value),
    }
}

fn is_small_name(text: &str) -> bool {
    let small = |b: u8| b.is_ascii_lowercase() || b.is_ascii_digit() || b == b'-';
    !text.is_empty() && text.bytes().all(small)
}
