//! What the members of a card may be: objects, arrays, strings, flags and listed words,
//! each with what is wrong where they are something else.

use super::path::{Fault, Path};
use super::shown::quoted;
use super::tree::Value;

pub fn entries(
    path: &Path,
    value: &Value,
    of: impl Fn(&Path, &Value) -> Option<Fault>,
) -> Option<Fault> {
    members(path, value, |key, value, path| {
        let of_key = |b: u8| b.is_ascii_alphanumeric() || b == b'-' || b == b'_';
        let good = (1..=255).contains(&key.len()) && key.bytes().all(of_key);
        match good {
            true => of(path, value),
            false => Some(Fault::at(
                path.clone(),
                "is a bad key: 1 to 255 of A-Z a-z 0-9 - _",
            )),
        }
    })
}

pub fn flags(path: &Path, value: &Value, known: &[&str], of: &str) -> Option<Fault> {
    members(path, value, |name, value, path| {
        match (known.contains(&name), value) {
            (false, _) => Some(Fault::at(
                path.clone(),
                format!("is no {of}: they are {}", known.join(", ")),
            )),
            (true, Value::Bool(true)) => None,
            (true, _) => Some(Fault::at(path.clone(), "is not true")),
        }
    })
}

pub fn listed(path: &Path, value: &Value, known: &[&str], of: &str) -> Option<Fault> {
    match value.text() {
        None => string(path, value),
        Some(text) if known.contains(&text) => None,
        Some(text) => Some(Fault::at(
            path.clone(),
            format!(
                "is {}, which is no {of}: they are {}",
                quoted(text),
                known.join(", ")
            ),
        )),
    }
}

pub fn members(
    path: &Path,
    value: &Value,
    of: impl Fn(&str, &Value, &Path) -> Option<Fault>,
) -> Option<Fault> {
    match object(path, value) {
        Ok(members) => members
            .iter()
            .find_map(|(name, value)| of(name, value, &path.name(name))),
        Err(fault) => Some(fault),
    }
}

pub fn items(
    path: &Path,
    value: &Value,
    of: impl Fn(&Path, &Value) -> Option<Fault>,
) -> Option<Fault> {
    match array(path, value) {
        Ok(items) => items
            .iter()
            .enumerate()
            .find_map(|(k, item)| of(&path.index(k), item)),
        Err(fault) => Some(fault),
    }
}

pub fn string(path: &Path, value: &Value) -> Option<Fault> {
    wrong(value.text(), path, value, "a string").err()
}

pub fn object<'a>(path: &Path, value: &'a Value) -> Result<&'a [(String, Value)], Fault> {
    wrong(value.object(), path, value, "an object")
}

pub fn array<'a>(path: &Path, value: &'a Value) -> Result<&'a [Value], Fault> {
    wrong(value.array(), path, value, "an array")
}

pub fn wrong<T>(right: Option<T>, path: &Path, value: &Value, must: &str) -> Result<T, Fault> {
    right.ok_or_else(|| {
        Fault::at(
            path.clone(),
            format!("is {}: it must be {must}", value.kind()),
        )
    })
}

pub fn missing(path: &Path, value: &Value, name: &str) -> Option<Fault> {
    let missing = value.get(name).is_none();
    missing.then(|| Fault::at(path.name(name), "is missing"))
}

pub fn unknown(path: Path, of: &str) -> Fault {
    Fault::at(path, format!("no member of {of}"))
}
