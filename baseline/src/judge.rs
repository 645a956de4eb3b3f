//! Which lines convert, which are kept and which are dropped (01, "Converted
//! lines" and "Kept"). VERSION, UID and KIND never come here.

use crate::chars::{is_key, read_pref};
use crate::contact::{Body, Entry, Parts};
use crate::json::{self, Value};
use crate::limits::JSON_DEPTH;
use crate::line::{Line, Param};
use crate::pointer;
use crate::table::*;
use crate::text;
use std::collections::{BTreeSet, HashSet};

pub enum Verdict {
    Full(String),
    Components(Parts),
    /// The map, the PROP-ID if any, and the entry.
    Entry(Map, Option<String>, Entry),
    /// A top-level member from a JSPROP line.
    Member(String, Value),
    Dropped,
    Kept,
}

/// What earlier converted lines have taken. Kept lines take nothing.
#[derive(Default)]
pub struct Judge {
    pub has_full: bool,
    pub has_components: bool,
    pub prop_ids: [HashSet<String>; 7],
    pub members: HashSet<String>,
}

impl Judge {
    pub fn judge(&mut self, line: &Line) -> Verdict {
        if is_derived_fn(line) {
            return Verdict::Dropped;
        }
        let verdict = match line.name.as_str() {
            _ if line.group.is_some() => None,
            "FN" => self.full(line),
            "N" => self.components(line),
            "JSPROP" => self.member(line),
            name => Map::of_property(name).and_then(|map| self.entry(map, line)),
        };
        verdict.unwrap_or(Verdict::Kept)
    }

    fn full(&mut self, line: &Line) -> Option<Verdict> {
        if self.has_full || !counting_params(line).is_empty() {
            return None;
        }
        let full = text::read(&line.value)?;
        self.has_full = true;
        Some(Verdict::Full(full))
    }

    fn components(&mut self, line: &Line) -> Option<Verdict> {
        if self.has_components || !counting_params(line).is_empty() {
            return None;
        }
        let parts = read_name_parts(&line.value)?;
        self.has_components = true;
        Some(Verdict::Components(parts))
    }

    fn member(&mut self, line: &Line) -> Option<Verdict> {
        let only_jsptr = counting_params(line)
            .iter()
            .all(|param| param.name == "JSPTR");
        let pointers = line.values_of("JSPTR");
        let ([raw], true) = (&pointers[..], only_jsptr) else {
            return None;
        };
        let name = pointer::read_part(raw)?;
        if is_own_member(&name) || self.members.contains(&name) {
            return None;
        }
        // The member will stand inside the outer object, which is depth 1.
        let json = text::read(&line.value)?;
        let document = json::read(json.as_bytes(), JSON_DEPTH - 1).ok()?;
        self.members.insert(name.clone());
        Some(Verdict::Member(name, document.value))
    }

    fn entry(&mut self, map: Map, line: &Line) -> Option<Verdict> {
        let given = Given::read(map, line)?;
        let prop_ids = &mut self.prop_ids[map as usize];
        if given
            .prop_id
            .as_ref()
            .is_some_and(|id| prop_ids.contains(id))
        {
            return None;
        }
        let entry = Entry {
            body: read_body(map, line, given.value_uri)?,
            types: given.types,
            pref: given.pref,
        };
        prop_ids.extend(given.prop_id.clone());
        Some(Verdict::Entry(map, given.prop_id, entry))
    }
}

/// The parameters but a VALUE=unknown, which counts as absent.
fn counting_params(line: &Line) -> Vec<&Param> {
    let is_unknown = |param: &Param| {
        param.name == "VALUE"
            && param
                .values
                .iter()
                .all(|v| v.eq_ignore_ascii_case("unknown"))
    };
    line.params
        .iter()
        .filter(|param| !is_unknown(param))
        .collect()
}

/// An FN made by a writer: it says nothing that N does not.
fn is_derived_fn(line: &Line) -> bool {
    let [param] = counting_params(line)[..] else {
        return false;
    };
    line.name == "FN"
        && line.group.is_none()
        && param.name == "DERIVED"
        && matches!(&param.values[..], [value] if value.eq_ignore_ascii_case("TRUE"))
}

/// The parameters of a line of one of the seven maps.
#[derive(Default)]
pub struct Given {
    prop_id: Option<String>,
    pref: Option<u8>,
    types: BTreeSet<usize>,
    value_uri: bool,
}

impl Given {
    /// None if there is another parameter, or another value of a listed one.
    pub fn read(map: Map, line: &Line) -> Option<Given> {
        let mut given = Given::default();
        for param in counting_params(line) {
            match (param.name.as_str(), &param.values[..]) {
                ("PROP-ID", [id]) if given.prop_id.is_none() && is_key(id) => {
                    given.prop_id = Some(id.clone());
                }
                ("PREF", [pref]) if given.pref.is_none() && map.takes_pref_and_type() => {
                    given.pref = Some(read_pref(pref)?);
                }
                ("TYPE", values) if map.takes_pref_and_type() => {
                    for value in values {
                        given.types.extend(read_types(map, value)?);
                    }
                }
                ("VALUE", [value]) if map.takes_value_uri() => {
                    given.value_uri = value.eq_ignore_ascii_case("uri");
                    given.value_uri.then_some(())?;
                }
                _ => return None,
            }
        }
        Some(given)
    }
}

/// A TYPE value; commas inside its quotes separate. None if one is not listed.
fn read_types(map: Map, value: &str) -> Option<Vec<usize>> {
    let listed = if map.takes_features() {
        &TYPES[..]
    } else {
        &TYPES[..CONTEXTS]
    };
    value
        .split(',')
        .map(|name| {
            listed
                .iter()
                .position(|known| known.vcard.eq_ignore_ascii_case(name))
        })
        .collect()
}

fn read_body(map: Map, line: &Line, value_uri: bool) -> Option<Body> {
    let raw = &line.value;
    match map {
        Map::Links => Some(Body::Text(raw.clone())),
        Map::Phones if value_uri => raw.starts_with("tel:").then(|| Body::Text(raw.clone())),
        Map::Nicknames if text::split(raw, ',').len() > 1 => None,
        Map::Titles if line.name == "ROLE" => text::read(raw).map(Body::Role),
        Map::Titles => text::read(raw).map(Body::Title),
        Map::Organizations => read_organization(raw),
        _ => text::read(raw).map(Body::Text),
    }
}

/// Name, then units; empty ones vanish, but no unit becomes the name.
fn read_organization(raw: &str) -> Option<Body> {
    let parts: Option<Vec<String>> = text::split(raw, ';').into_iter().map(text::read).collect();
    let mut parts = parts?.into_iter();
    let name = parts.next()?;
    let units: Vec<String> = parts.filter(|unit| !unit.is_empty()).collect();
    let is_empty = name.is_empty() && units.is_empty();
    (!is_empty).then_some(Body::Organization { name, units })
}

/// N's parts. A family value also among the secondary surnames is ignored, and
/// a suffix also among the generations.
fn read_name_parts(raw: &str) -> Option<Parts> {
    let mut parts = Parts::default();
    for (index, part) in text::split(raw, ';').into_iter().enumerate() {
        let values = parts.get_mut(index)?;
        for value in text::split(part, ',') {
            values.push(text::read(value)?);
        }
        values.retain(|value| !value.is_empty());
    }
    for (part, echoed) in [(SURNAME, SURNAME2), (CREDENTIAL, GENERATION)] {
        let repeats = parts[echoed].clone();
        parts[part].retain(|value| !repeats.contains(value));
    }
    let has_values = parts.iter().any(|values| !values.is_empty());
    has_values.then_some(parts)
}
