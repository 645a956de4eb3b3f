//! Refusal 12: which member no card has (docs/RULES.md, To vCard). The members of
//! vCardProps, which turn on their place, are in `not_kept`.

use super::path::{Fault, Path};
use super::shape::{
    array, entries, flags, items, listed, members, missing, object, string, unknown,
};
use super::shown::quoted;
use super::tree::Value;

const CONTEXTS: &[&str] = &["private", "work"];
const FEATURES: &[&str] = &[
    "fax",
    "mobile",
    "pager",
    "text",
    "textphone",
    "video",
    "voice",
];
const COMPONENTS: &[&str] = &[
    "surname",
    "given",
    "given2",
    "title",
    "credential",
    "surname2",
    "generation",
];

/// A map of the rules' table: what an entry is, the string it must have, and whether
/// it takes contexts and pref, and features.
struct Map {
    member: &'static str,
    entry: &'static str,
    string: &'static str,
    preferred: bool,
    features: bool,
}

const fn map(
    member: &'static str,
    entry: &'static str,
    string: &'static str,
    preferred: bool,
) -> Map {
    Map {
        member,
        entry,
        string,
        preferred,
        features: false,
    }
}

const MAPS: [Map; 5] = [
    map("nicknames", "a nickname", "name", true),
    map("emails", "an e-mail address", "address", true),
    Map {
        features: true,
        ..map("phones", "a telephone", "number", true)
    },
    map("links", "a link", "uri", true),
    map("notes", "a note", "note", false),
];

/// The first fault outside of vCardProps.
pub fn fault(card: &Value) -> Option<Fault> {
    let root = Path::default();
    let Some(members) = card.object() else {
        return Some(Fault::at(
            root,
            format!("is {}: a card is an object", card.kind()),
        ));
    };
    let head = [("@type", "Card"), ("version", "1.0")];
    let head = head
        .iter()
        .find_map(|(name, must)| constant(card, name, must));
    head.or_else(|| uid(card)).or_else(|| {
        members
            .iter()
            .find_map(|(name, value)| top(&root.name(name), name, value))
    })
}

fn constant(card: &Value, name: &str, must: &str) -> Option<Fault> {
    let path = Path::default().name(name);
    let what = match card.get(name) {
        None => format!("is missing: it must be {}", quoted(must)),
        Some(Value::Text(text)) if text == must => return None,
        Some(Value::Text(text)) => format!("is {}: it must be {}", quoted(text), quoted(must)),
        Some(other) => format!("is {}: it must be {}", other.kind(), quoted(must)),
    };
    Some(Fault::at(path, what))
}

fn uid(card: &Value) -> Option<Fault> {
    let path = Path::default().name("uid");
    match card.get("uid") {
        None => Some(Fault::at(path, "is missing: a card has a uid")),
        Some(value) => string(&path, value).or_else(|| match value.text() {
            Some("") => Some(Fault::at(path, "is empty")),
            _ => None,
        }),
    }
}

fn top(path: &Path, name: &str, value: &Value) -> Option<Fault> {
    match name {
        "" => Some(Fault::at(
            path.clone(),
            "is a member with an empty name, which no JSPTR can name",
        )),
        "kind" => kind(path, value),
        "name" => full_name(path, value),
        "titles" => entries(path, value, title),
        "organizations" => entries(path, value, organization),
        "vCardProps" => array(path, value).err(),
        _ => {
            let map = MAPS.iter().find(|map| map.member == name)?;
            entries(path, value, |path, value| entry(map, path, value))
        }
    }
}

fn kind(path: &Path, value: &Value) -> Option<Fault> {
    let Some(kind) = value.text() else {
        return string(path, value);
    };
    let lower = |b: u8| b.is_ascii_lowercase() || b.is_ascii_digit() || b == b'-';
    let good = !kind.is_empty() && kind.bytes().all(lower);
    (!good).then(|| {
        Fault::at(
            path.clone(),
            format!(
                "is {}: a kind has small letters, digits and hyphens only",
                quoted(kind)
            ),
        )
    })
}

fn full_name(path: &Path, value: &Value) -> Option<Fault> {
    let members = match object(path, value) {
        Ok(members) => members,
        Err(fault) => return Some(fault),
    };
    let inside = members.iter().find_map(|(name, value)| {
        let path = path.name(name);
        match (name.as_str(), value) {
            ("full", value) => string(&path, value),
            ("components", value) => items(&path, value, component),
            ("isOrdered", Value::Bool(false)) => None,
            ("isOrdered", _) => Some(Fault::at(path, "is not false, and no N line has an order")),
            _ => Some(unknown(path, "a name")),
        }
    });
    let bare = value.get("full").is_none() && value.get("components").is_none();
    inside.or_else(|| bare.then(|| Fault::at(path.clone(), "has neither full nor components")))
}

fn component(path: &Path, value: &Value) -> Option<Fault> {
    let of = |name: &str, value: &Value, path: &Path| match name {
        "kind" => listed(path, value, COMPONENTS, "kind of component"),
        "value" => string(path, value),
        _ => Some(unknown(path.clone(), "a component of a name")),
    };
    members(path, value, of)
        .or_else(|| missing(path, value, "kind"))
        .or_else(|| missing(path, value, "value"))
}

fn entry(map: &Map, path: &Path, value: &Value) -> Option<Fault> {
    let of = |name: &str, value: &Value, path: &Path| match name {
        _ if name == map.string => string(path, value),
        "contexts" if map.preferred => flags(path, value, CONTEXTS, "context"),
        "pref" if map.preferred => pref(path, value),
        "features" if map.features => flags(path, value, FEATURES, "feature"),
        _ => Some(unknown(path.clone(), map.entry)),
    };
    members(path, value, of).or_else(|| missing(path, value, map.string))
}

fn title(path: &Path, value: &Value) -> Option<Fault> {
    let of = |name: &str, value: &Value, path: &Path| match name {
        "kind" => listed(path, value, &["title", "role"], "kind of title"),
        "name" => string(path, value),
        _ => Some(unknown(path.clone(), "a title")),
    };
    members(path, value, of).or_else(|| missing(path, value, "name"))
}

fn organization(path: &Path, value: &Value) -> Option<Fault> {
    let of = |name: &str, value: &Value, path: &Path| match name {
        "name" => string(path, value),
        "units" => items(path, value, unit),
        _ => Some(unknown(path.clone(), "an organization")),
    };
    let filled = |value: Option<&Value>| {
        value
            .and_then(Value::text)
            .is_some_and(|text| !text.is_empty())
    };
    let units = value
        .get("units")
        .and_then(Value::array)
        .unwrap_or_default();
    let empty = !filled(value.get("name")) && !units.iter().any(|unit| filled(unit.get("name")));
    members(path, value, of).or_else(|| {
        empty.then(|| Fault::at(path.clone(), "is empty: it has neither a name nor a unit"))
    })
}

fn unit(path: &Path, value: &Value) -> Option<Fault> {
    let of = |name: &str, value: &Value, path: &Path| match name {
        "name" => string(path, value),
        _ => Some(unknown(path.clone(), "a unit")),
    };
    members(path, value, of).or_else(|| missing(path, value, "name"))
}

fn pref(path: &Path, value: &Value) -> Option<Fault> {
    let spelled = match value {
        Value::Number(spelled) => spelled,
        other => {
            return Some(Fault::at(
                path.clone(),
                format!("is {}: it must be a number from 1 to 100", other.kind()),
            ))
        }
    };
    let good = (1..=100).any(|pref: u8| pref.to_string() == *spelled);
    (!good).then(|| {
        Fault::at(
            path.clone(),
            format!(
                "is {}: it must be a whole number from 1 to 100",
                super::shown::printable(spelled)
            ),
        )
    })
}
