//! Refusal 13: which string no line of a card can carry, and for which character.

use super::path::{Fault, Path};
use super::shown::{control, quoted};
use super::tree::Value;

/// What the line does with a string: TEXT escapes a line feed, a parameter has no
/// double quote.
#[derive(Clone, Copy, PartialEq)]
enum As {
    Text,
    Raw,
    Parameter,
}

/// The strings of the maps' entries that are TEXT.
const TEXTS: [(&str, &str); 6] = [
    ("nicknames", "name"),
    ("emails", "address"),
    ("phones", "number"),
    ("notes", "note"),
    ("titles", "name"),
    ("organizations", "name"),
];

/// The first string that is not carried, of a card that is not refused 12.
pub fn fault(card: &Value) -> Option<Fault> {
    let root = Path::default();
    let members = card.object()?;
    members.iter().find_map(|(name, value)| {
        let path = root.name(name);
        match name.as_str() {
            "@type" | "version" | "kind" => None,
            "uid" => string(&path, value, As::Raw),
            "name" => full_name(&path, value),
            "links" => entries(&path, value, "uri", As::Raw),
            "vCardProps" => kept(&path, value),
            _ => match TEXTS.iter().find(|(map, _)| map == name) {
                Some((_, inside)) => entries(&path, value, inside, As::Text),
                None => top_name(&path, name),
            },
        }
    })
}

/// The name of another member goes into JSPTR.
fn top_name(path: &Path, name: &str) -> Option<Fault> {
    let what = offence(name, As::Parameter)?;
    Some(Fault::at(
        path.clone(),
        format!("the name goes into a parameter, and {what}"),
    ))
}

fn string(path: &Path, value: &Value, used: As) -> Option<Fault> {
    let what = offence(value.text()?, used)?;
    Some(Fault::at(path.clone(), what))
}

fn offence(text: &str, used: As) -> Option<String> {
    let bad = |c: char| match c {
        '\t' => false,
        '\n' => used != As::Text,
        '"' => used == As::Parameter,
        c => c.is_ascii_control(),
    };
    let (k, c) = text.chars().enumerate().find(|(_, c)| bad(*c))?;
    let which = if c == '"' {
        "a double quote, which no parameter can have".to_string()
    } else {
        control(c)
    };
    Some(format!("character {} is {which}", k + 1))
}

fn full_name(path: &Path, name: &Value) -> Option<Fault> {
    let full = name
        .get("full")
        .and_then(|full| string(&path.name("full"), full, As::Text));
    let path = path.name("components");
    let components = name
        .get("components")
        .and_then(Value::array)
        .unwrap_or_default();
    let values = || components.iter().enumerate();
    full.or_else(|| {
        values().find_map(|(k, part)| {
            string(&path.index(k).name("value"), part.get("value")?, As::Text)
        })
    })
    .or_else(|| {
        values().find_map(|(k, part)| twice(&path.index(k).name("value"), part, components))
    })
}

/// A surname that is a second surname, too, would be lost on the way back; so would a
/// credential that is a generation.
fn twice(path: &Path, part: &Value, components: &[Value]) -> Option<Fault> {
    let field = |part: &Value, name: &str| part.get(name).and_then(Value::text).map(str::to_string);
    let (kind, value) = (field(part, "kind")?, field(part, "value")?);
    let other = match kind.as_str() {
        "surname" => "surname2",
        "credential" => "generation",
        _ => return None,
    };
    let is_other = |part: &Value| {
        field(part, "kind").as_deref() == Some(other)
            && field(part, "value").as_ref() == Some(&value)
    };
    let found = !value.is_empty() && components.iter().any(is_other);
    found.then(|| {
        Fault::at(
            path.clone(),
            format!("is {}, which is a {other}, too", quoted(&value)),
        )
    })
}

fn entries(path: &Path, map: &Value, inside: &str, used: As) -> Option<Fault> {
    map.object()?.iter().find_map(|(key, entry)| {
        let path = path.name(key);
        let first = entry
            .get(inside)
            .and_then(|value| string(&path.name(inside), value, used));
        first.or_else(|| units(&path.name("units"), entry.get("units")?))
    })
}

fn units(path: &Path, units: &Value) -> Option<Fault> {
    let units = units.array()?.iter().enumerate();
    units
        .into_iter()
        .find_map(|(k, unit)| string(&path.index(k).name("name"), unit.get("name")?, As::Text))
}

fn kept(path: &Path, entries: &Value) -> Option<Fault> {
    let entries = entries.array()?.iter().enumerate();
    entries.into_iter().find_map(|(k, entry)| {
        let path = path.index(k);
        let [_, parameters, _, value] = entry.array()? else {
            return None;
        };
        let parameter = parameters.object()?.iter().find_map(|(name, value)| {
            let path = path.index(1).name(name);
            match value {
                Value::Array(values) => values
                    .iter()
                    .enumerate()
                    .find_map(|(k, value)| string(&path.index(k), value, As::Parameter)),
                one => string(&path, one, As::Parameter),
            }
        });
        parameter.or_else(|| string(&path.index(3), value, As::Raw))
    })
}
