//! The normal form of a JSON card (01, "Normal forms"), worked out on the JSON
//! tree itself, apart from the converter.

use crate::json::{self, Value};

type Members = [(String, Value)];

/// The members of an entry of any map, in the stated order.
const ENTRY_ORDER: [&str; 10] = [
    "kind", "name", "address", "number", "uri", "note", "units", "contexts", "features", "pref",
];

const MAPS: [&str; 7] = [
    "nicknames",
    "emails",
    "phones",
    "links",
    "notes",
    "titles",
    "organizations",
];

const KINDS: [&str; 7] = [
    "surname",
    "given",
    "given2",
    "title",
    "credential",
    "surname2",
    "generation",
];

/// The normal form of an accepted JSON card; empty for what is no JSON object.
pub fn normal_json(input: &[u8]) -> Vec<u8> {
    let Ok(document) = json::read(input, 16) else {
        return Vec::new();
    };
    let Some(card) = document.value.as_object() else {
        return Vec::new();
    };
    let mut out = String::new();
    json::write(&Value::Object(normal_members(card)), &mut out);
    out.into_bytes()
}

fn normal_members(card: &Members) -> Vec<(String, Value)> {
    let mut normal = pick(card, &["@type", "version", "uid", "kind"]);
    let mut own = vec!["@type", "version", "uid", "kind", "name", "vCardProps"];
    own.extend(MAPS);
    normal.extend(pick_with(card, "name", normal_name));
    for map in MAPS {
        normal.extend(pick_with(card, map, |value| normal_map(map, value)));
    }
    let others = card
        .iter()
        .filter(|(name, _)| !own.contains(&name.as_str()));
    normal.extend(others.cloned());
    normal.extend(pick_with(card, "vCardProps", |value| {
        map_items(value, |entry| Some(normal_kept(entry)))
    }));
    normal
}

fn find<'a>(members: &'a Members, name: &str) -> Option<&'a Value> {
    members
        .iter()
        .find(|(other, _)| other == name)
        .map(|(_, value)| value)
}

/// The members of these names that are there, in the order of the names.
fn pick(members: &Members, names: &[&str]) -> Vec<(String, Value)> {
    names
        .iter()
        .flat_map(|name| pick_with(members, name, Value::clone))
        .collect()
}

/// A member rewritten, or none if it is absent or then empty.
fn pick_with(
    members: &Members,
    name: &str,
    rewrite: impl Fn(&Value) -> Value,
) -> Option<(String, Value)> {
    let value = rewrite(find(members, name)?);
    let is_empty = match &value {
        Value::Array(items) => items.is_empty(),
        Value::Object(members) => members.is_empty(),
        _ => false,
    };
    (!is_empty).then(|| (name.to_string(), value))
}

/// Rewrites the items of an array, leaving out those that rewrite to none.
fn map_items(value: &Value, rewrite: impl Fn(&Value) -> Option<Value>) -> Value {
    let items = value.as_array().unwrap_or_default();
    Value::Array(items.iter().filter_map(rewrite).collect())
}

/// An object whose string member of that name is not empty, else none.
fn unless_empty(value: &Value, name: &str) -> Option<Value> {
    let text = find(value.as_object()?, name)?.as_str()?;
    (!text.is_empty()).then(|| value.clone())
}

fn normal_name(value: &Value) -> Value {
    let members = value.as_object().unwrap_or_default();
    let mut normal = pick(members, &["full"]);
    normal.extend(pick_with(members, "components", normal_components));
    Value::Object(normal)
}

/// Stably by kind, without empty values.
fn normal_components(value: &Value) -> Value {
    let Value::Array(mut components) = map_items(value, |component| {
        let members = unless_empty(component, "value")?;
        Some(Value::Object(pick(
            members.as_object()?,
            &["kind", "value"],
        )))
    }) else {
        return Value::Array(Vec::new());
    };
    components.sort_by_key(|component| {
        let kind = component
            .as_object()
            .and_then(|members| find(members, "kind"));
        let kind = kind.and_then(Value::as_str);
        KINDS.iter().position(|known| Some(*known) == kind)
    });
    Value::Array(components)
}

fn normal_map(map: &str, value: &Value) -> Value {
    let entries = value.as_object().unwrap_or_default().iter();
    let normal = entries.map(|(key, entry)| (key.clone(), normal_entry(map, entry)));
    Value::Object(normal.collect())
}

fn normal_entry(map: &str, entry: &Value) -> Value {
    let mut members = entry.as_object().unwrap_or_default().to_vec();
    if map == "titles" && find(&members, "kind").is_none() {
        members.push(("kind".to_string(), Value::string("title")));
    }
    if map == "organizations" {
        members.retain(|(name, value)| name != "name" || value.as_str() != Some(""));
    }
    let normal = ENTRY_ORDER.iter().filter_map(|name| {
        pick_with(&members, name, |value| match *name {
            "units" => map_items(value, |unit| unless_empty(unit, "name")),
            "contexts" | "features" => sorted(value),
            _ => value.clone(),
        })
    });
    Value::Object(normal.collect())
}

fn sorted(value: &Value) -> Value {
    let mut members = value.as_object().unwrap_or_default().to_vec();
    members.sort_by(|one, other| one.0.cmp(&other.0));
    Value::Object(members)
}

/// "group" first and one-value arrays as strings.
fn normal_kept(entry: &Value) -> Value {
    let mut fields = entry.as_array().unwrap_or_default().to_vec();
    if let Some(Value::Object(params)) = fields.get_mut(1) {
        params.sort_by_key(|(name, _)| name != "group");
        for (_, value) in params {
            if let Some([single]) = value.as_array() {
                *value = single.clone();
            }
        }
    }
    Value::Array(fields)
}
