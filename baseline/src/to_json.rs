//! Writes a contact as JSON, in the stated order, straight to the output.

use crate::contact::{Body, Contact, Entry};
use crate::json::{self, write_string};
use crate::line::Line;
use crate::table::{Map, CONTEXTS, KINDS, MAPS, TYPES};

pub fn write(contact: &Contact) -> String {
    let mut out = Out::default();
    out.open('{');
    out.text("@type", "Card");
    out.text("version", "1.0");
    out.text("uid", &contact.uid);
    if let Some(kind) = &contact.kind {
        out.text("kind", kind);
    }
    if contact.full.is_some() || contact.has_components() {
        out.name("name");
        write_name(contact, &mut out);
    }
    for map in MAPS {
        let entries = &contact.maps[map as usize];
        if !entries.is_empty() {
            out.name(map.member());
            out.open('{');
            for (key, entry) in entries {
                out.name(key);
                write_entry(map, entry, &mut out);
            }
            out.close('}');
        }
    }
    for (name, value) in &contact.members {
        out.name(name);
        json::write(value, &mut out.json);
    }
    if !contact.kept.is_empty() {
        out.name("vCardProps");
        out.open('[');
        for line in &contact.kept {
            out.separate();
            write_kept(line, &mut out);
        }
        out.close(']');
    }
    out.close('}');
    out.json
}

/// The JSON so far; a comma stands before every member or item but the first
/// behind an opening bracket.
#[derive(Default)]
struct Out {
    json: String,
}

impl Out {
    fn open(&mut self, bracket: char) {
        self.json.push(bracket);
    }

    fn close(&mut self, bracket: char) {
        self.json.push(bracket);
    }

    fn separate(&mut self) {
        if !self.json.ends_with(['{', '[']) {
            self.json.push(',');
        }
    }

    fn name(&mut self, name: &str) {
        self.separate();
        write_string(name, &mut self.json);
        self.json.push(':');
    }

    fn text(&mut self, name: &str, text: &str) {
        self.name(name);
        write_string(text, &mut self.json);
    }

    fn item(&mut self, text: &str) {
        self.separate();
        write_string(text, &mut self.json);
    }
}

fn write_name(contact: &Contact, out: &mut Out) {
    out.open('{');
    if let Some(full) = &contact.full {
        out.text("full", full);
    }
    if contact.has_components() {
        out.name("components");
        out.open('[');
        for (kind, values) in KINDS.iter().zip(&contact.components) {
            for value in values {
                out.separate();
                out.open('{');
                out.text("kind", kind);
                out.text("value", value);
                out.close('}');
            }
        }
        out.close(']');
    }
    out.close('}');
}

/// Kind, the table's members, contexts, features, pref.
fn write_entry(map: Map, entry: &Entry, out: &mut Out) {
    out.open('{');
    match &entry.body {
        Body::Text(text) => out.text(map.text_member(), text),
        Body::Title(name) => write_title("title", name, out),
        Body::Role(name) => write_title("role", name, out),
        Body::Organization { name, units } => write_organization(name, units, out),
    }
    write_types("contexts", entry, 0..CONTEXTS, out);
    write_types("features", entry, CONTEXTS..TYPES.len(), out);
    if let Some(pref) = entry.pref {
        out.name("pref");
        out.json.push_str(&pref.to_string());
    }
    out.close('}');
}

fn write_title(kind: &str, name: &str, out: &mut Out) {
    out.text("kind", kind);
    out.text("name", name);
}

fn write_organization(name: &str, units: &[String], out: &mut Out) {
    if !name.is_empty() {
        out.text("name", name);
    }
    if !units.is_empty() {
        out.name("units");
        out.open('[');
        for unit in units {
            out.separate();
            out.open('{');
            out.text("name", unit);
            out.close('}');
        }
        out.close(']');
    }
}

fn write_types(name: &str, entry: &Entry, which: std::ops::Range<usize>, out: &mut Out) {
    if entry.types.range(which.clone()).next().is_none() {
        return;
    }
    out.name(name);
    out.open('{');
    for &index in entry.types.range(which) {
        out.name(TYPES[index].json);
        out.json.push_str("true");
    }
    out.close('}');
}

/// Name, parameters but VALUE with the group first, type, raw value.
fn write_kept(line: &Line, out: &mut Out) {
    let mut value_type = "unknown";
    out.open('[');
    out.item(&line.name.to_ascii_lowercase());
    out.separate();
    out.open('{');
    if let Some(group) = &line.group {
        out.text("group", group);
    }
    for param in &line.params {
        match (param.name.as_str(), &param.values[..]) {
            ("VALUE", [value]) => value_type = value,
            (name, values) => {
                out.name(&name.to_ascii_lowercase());
                write_one_or_many(values, out);
            }
        }
    }
    out.close('}');
    out.item(value_type);
    out.item(&line.value);
    out.close(']');
}

fn write_one_or_many(values: &[String], out: &mut Out) {
    if let [value] = values {
        return write_string(value, &mut out.json);
    }
    out.open('[');
    for value in values {
        out.item(value);
    }
    out.close(']');
}
