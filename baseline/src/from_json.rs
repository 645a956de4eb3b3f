//! Reads a JSON tree as a contact. None is refusal 12: "JSON is no card of
//! this paper".

use crate::chars::{is_key, is_lower_name, read_pref};
use crate::contact::{Body, Contact, Entry, Parts};
use crate::from_kept::read_kept;
use crate::json::Value;
use crate::table::{Map, CONTEXTS, KINDS, MAPS, TYPES};
use std::collections::BTreeSet;
use std::ops::Range;

pub fn read_contact(value: &Value) -> Option<Contact> {
    let mut fields = Fields::of(value)?;
    require(fields.take("@type")?.as_str()? == "Card")?;
    require(fields.take("version")?.as_str()? == "1.0")?;
    let mut contact = Contact {
        uid: read_string(fields.take("uid")?)?,
        kind: optional(fields.take("kind"), read_kind)?,
        ..Contact::default()
    };
    require(!contact.uid.is_empty())?;
    if let Some(name) = fields.take("name") {
        (contact.full, contact.components) = read_name(name)?;
    }
    for map in MAPS {
        if let Some(entries) = fields.take(map.member()) {
            contact.maps[map as usize] = read_entries(map, entries)?;
        }
    }
    let kept = fields.take("vCardProps");
    contact.members = fields.into_rest();
    require(contact.members.iter().all(|(name, _)| !name.is_empty()))?;
    // Last, because an entry is judged in its place: after all that converts.
    if let Some(kept) = kept {
        contact.kept = read_kept(kept, &contact)?;
    }
    Some(contact)
}

fn require(condition: bool) -> Option<()> {
    condition.then_some(())
}

/// Reads a member that may be absent but not wrong.
fn optional<T>(value: Option<&Value>, read: impl Fn(&Value) -> Option<T>) -> Option<Option<T>> {
    value.map_or(Some(None), |value| read(value).map(Some))
}

fn read_string(value: &Value) -> Option<String> {
    value.as_str().map(str::to_string)
}

/// KIND gives name characters in lower case only.
fn read_kind(value: &Value) -> Option<String> {
    read_string(value).filter(|kind| is_lower_name(kind))
}

/// The members of an object, taken one by one so that unknown ones are seen.
struct Fields<'a> {
    left: Vec<&'a (String, Value)>,
}

impl<'a> Fields<'a> {
    fn of(value: &'a Value) -> Option<Fields<'a>> {
        let left = value.as_object()?.iter().collect();
        Some(Fields { left })
    }

    fn take(&mut self, name: &str) -> Option<&'a Value> {
        let at = self.left.iter().position(|member| member.0 == name)?;
        Some(&self.left.remove(at).1)
    }

    fn into_rest(self) -> Vec<(String, Value)> {
        self.left.into_iter().cloned().collect()
    }

    /// None if a member is left: "a nested member not above".
    fn end(self) -> Option<()> {
        require(self.left.is_empty())
    }
}

/// full and components; one of them may be absent, and isOrdered is false.
fn read_name(value: &Value) -> Option<(Option<String>, Parts)> {
    let mut fields = Fields::of(value)?;
    let full = optional(fields.take("full"), read_string)?;
    let components = optional(fields.take("components"), read_components)?;
    let ordered = fields.take("isOrdered");
    require(matches!(ordered, None | Some(Value::Bool(false))))?;
    require(full.is_some() || components.is_some())?;
    fields.end()?;
    Some((full, components.unwrap_or_default()))
}

/// Stably by kind; empty values vanish.
fn read_components(value: &Value) -> Option<Parts> {
    let mut parts = Parts::default();
    for component in value.as_array()? {
        let mut fields = Fields::of(component)?;
        let kind = fields.take("kind")?.as_str()?;
        let part = KINDS.iter().position(|known| *known == kind)?;
        let value = read_string(fields.take("value")?)?;
        fields.end()?;
        if !value.is_empty() {
            parts[part].push(value);
        }
    }
    Some(parts)
}

fn read_entries(map: Map, value: &Value) -> Option<Vec<(String, Entry)>> {
    value
        .as_object()?
        .iter()
        .map(|(key, value)| {
            require(is_key(key))?;
            Some((key.clone(), read_entry(map, value)?))
        })
        .collect()
}

fn read_entry(map: Map, value: &Value) -> Option<Entry> {
    let mut fields = Fields::of(value)?;
    let mut entry = Entry {
        body: read_body(map, &mut fields)?,
        types: BTreeSet::new(),
        pref: None,
    };
    if map.takes_pref_and_type() {
        entry.types = read_types(fields.take("contexts"), 0..CONTEXTS)?;
        entry.pref = optional(fields.take("pref"), read_number_as_pref)?;
    }
    if map.takes_features() {
        let features = read_types(fields.take("features"), CONTEXTS..TYPES.len())?;
        entry.types.extend(features);
    }
    fields.end()?;
    Some(entry)
}

/// "Spelled as PREF": 1.0 and 1e0 are not.
fn read_number_as_pref(value: &Value) -> Option<u8> {
    match value {
        Value::Number(spelling) => read_pref(spelling),
        _ => None,
    }
}

/// The listed contexts or features, each true.
fn read_types(value: Option<&Value>, listed: Range<usize>) -> Option<BTreeSet<usize>> {
    let Some(value) = value else {
        return Some(BTreeSet::new());
    };
    value
        .as_object()?
        .iter()
        .map(|(name, value)| {
            require(*value == Value::Bool(true))?;
            listed.clone().find(|&index| TYPES[index].json == name)
        })
        .collect()
}

fn read_body(map: Map, fields: &mut Fields) -> Option<Body> {
    match map {
        Map::Organizations => read_organization(fields),
        Map::Titles => {
            let kind = optional(fields.take("kind"), read_string)?;
            let name = read_string(fields.take("name")?)?;
            match kind.as_deref() {
                None | Some("title") => Some(Body::Title(name)),
                Some("role") => Some(Body::Role(name)),
                Some(_) => None,
            }
        }
        _ => read_string(fields.take(map.text_member())?).map(Body::Text),
    }
}

/// name and units, one of which may be absent; not all of it may be empty.
fn read_organization(fields: &mut Fields) -> Option<Body> {
    let name = optional(fields.take("name"), read_string)?.unwrap_or_default();
    let units = optional(fields.take("units"), read_units)?.unwrap_or_default();
    require(!name.is_empty() || !units.is_empty())?;
    Some(Body::Organization { name, units })
}

fn read_units(value: &Value) -> Option<Vec<String>> {
    let mut units = Vec::new();
    for unit in value.as_array()? {
        let mut fields = Fields::of(unit)?;
        units.push(read_string(fields.take("name")?)?);
        fields.end()?;
    }
    units.retain(|unit| !unit.is_empty());
    Some(units)
}
