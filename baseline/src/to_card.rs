//! Writes a contact as a card in its normal form.

use crate::carry::fits_raw;
use crate::contact::{Body, Contact, Entry, Parts};
use crate::json::{self, Value};
use crate::line::{fold, Line, Param};
use crate::pointer;
use crate::table::*;
use crate::text;

/// The lines between BEGIN and END.
pub fn lines_of(contact: &Contact) -> Vec<Line> {
    let mut lines = vec![
        Line::bare("VERSION", "4.0".to_string()),
        Line::bare("UID", contact.uid.clone()),
    ];
    lines.extend(
        contact
            .kind
            .iter()
            .map(|kind| Line::bare("KIND", kind.clone())),
    );
    lines.push(full_line(contact));
    if contact.has_components() {
        lines.push(Line::bare("N", name_value(&contact.components)));
    }
    for map in MAPS {
        let entries = &contact.maps[map as usize];
        lines.extend(
            entries
                .iter()
                .map(|(key, entry)| entry_line(map, key, entry)),
        );
    }
    lines.extend(
        contact
            .members
            .iter()
            .map(|(name, value)| member_line(name, value)),
    );
    lines.extend(contact.kept.iter().cloned());
    lines
}

/// The card's bytes: folded, with CR LF ends.
pub fn write(lines: &[Line]) -> String {
    let mut out = String::from("BEGIN:VCARD\r\n");
    for line in lines {
        fold(&line.write(), &mut out);
    }
    out.push_str("END:VCARD\r\n");
    out
}

/// FN, or one made from the components, marked as such.
fn full_line(contact: &Contact) -> Line {
    if let Some(full) = &contact.full {
        return Line::bare("FN", text::write(full));
    }
    let components: Vec<&str> = contact
        .components
        .iter()
        .flatten()
        .map(String::as_str)
        .collect();
    let mut line = Line::bare("FN", text::write(&components.join(" ")));
    line.params.push(Param::one("DERIVED", "TRUE"));
    line
}

/// Seven parts; surname2 is appended to family and generation to suffixes.
fn name_value(components: &Parts) -> String {
    let mut parts = components.clone();
    for (part, echoed) in [(SURNAME, SURNAME2), (CREDENTIAL, GENERATION)] {
        parts[part].extend_from_slice(&components[echoed]);
    }
    let written = parts.map(|values| {
        let values: Vec<String> = values.iter().map(|value| text::write_part(value)).collect();
        values.join(",")
    });
    written.join(";")
}

/// Parameters in the order PROP-ID, PREF, TYPE, VALUE.
fn entry_line(map: Map, key: &str, entry: &Entry) -> Line {
    let (name, value, value_uri) = property(map, &entry.body);
    let mut line = Line::bare(name, value);
    line.params.push(Param::one("PROP-ID", key));
    if let Some(pref) = entry.pref {
        line.params.push(Param::one("PREF", &pref.to_string()));
    }
    if !entry.types.is_empty() {
        let types = entry
            .types
            .iter()
            .map(|&index| TYPES[index].vcard.to_string());
        line.params.push(Param {
            name: "TYPE".to_string(),
            values: types.collect(),
        });
    }
    if value_uri {
        line.params.push(Param::one("VALUE", "uri"));
    }
    line
}

/// The property's name, its written value, and whether it has VALUE=uri.
fn property(map: Map, body: &Body) -> (&'static str, String, bool) {
    match (map, body) {
        (Map::Links, Body::Text(uri)) => ("URL", uri.clone(), false),
        (Map::Phones, Body::Text(number)) if is_tel_uri(number) => ("TEL", number.clone(), true),
        (_, Body::Text(text)) => (text_property(map), text::write(text), false),
        (_, Body::Title(name)) => ("TITLE", text::write(name), false),
        (_, Body::Role(name)) => ("ROLE", text::write(name), false),
        (_, Body::Organization { name, units }) => {
            let parts: Vec<String> = std::iter::once(name)
                .chain(units)
                .map(|part| text::write_part(part))
                .collect();
            ("ORG", parts.join(";"), false)
        }
    }
}

fn text_property(map: Map) -> &'static str {
    match map {
        Map::Nicknames => "NICKNAME",
        Map::Emails => "EMAIL",
        Map::Phones => "TEL",
        Map::Links => "URL",
        Map::Notes => "NOTE",
        Map::Titles => "TITLE",
        Map::Organizations => "ORG",
    }
}

/// TEL's rule: a number that can stand raw as a tel: URI does.
fn is_tel_uri(number: &str) -> bool {
    number.starts_with("tel:") && fits_raw(number)
}

fn member_line(name: &str, value: &Value) -> Line {
    let mut json = String::new();
    json::write(value, &mut json);
    let mut line = Line::bare("JSPROP", text::write(&json));
    line.params
        .push(Param::one("JSPTR", &pointer::write_part(name)));
    line
}
