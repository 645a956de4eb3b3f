//! The normal form of a card (01, "Normal forms"), worked out on the card's
//! own lines. It shares the line and JSON layers with the converter, but not
//! the table, the judge or any of the conversion, so that each checks the
//! other: values are rewritten from one spelling to another, never decoded
//! into a contact.

mod entries;
mod jsprop;
mod name;
mod params;
mod spelling;

use crate::check::read_card;
use crate::line::{fold, Line};
use params::{is_derived, kept, names_of};
use spelling::{respell, Semicolon};

/// The normal form of an accepted card; empty for one that is refused.
pub fn normal_card(input: &[u8], stem: &[u8], number: u64) -> Vec<u8> {
    let Ok(lines) = read_card(input) else {
        return Vec::new();
    };
    let mut sheet = Sheet::default();
    for line in &lines[1..] {
        sheet.sort_in(line);
    }
    let made_uid = format!("{}-{number}", String::from_utf8_lossy(stem));
    let mut card = String::from("BEGIN:VCARD\r\nVERSION:4.0\r\n");
    for line in sheet.into_lines(made_uid) {
        fold(&line.write(), &mut card);
    }
    card.push_str("END:VCARD\r\n");
    card.into_bytes()
}

/// The rewritten lines, sorted into the places of the normal form.
#[derive(Default)]
struct Sheet {
    uid: Option<Line>,
    kind: Option<Line>,
    full: Option<Line>,
    name: Option<name::Parts>,
    maps: [Vec<Line>; 7],
    jsprops: Vec<Line>,
    kept: Vec<Line>,
}

impl Sheet {
    fn sort_in(&mut self, line: &Line) {
        match line.name.as_str() {
            "UID" => self.uid = Some(Line::bare("UID", line.value.clone())),
            "KIND" => {
                let lower = line.value.to_ascii_lowercase();
                self.kind = Some(Line::bare("KIND", lower));
            }
            _ if is_derived(line) => {}
            _ if line.group.is_none() && self.sort_in_converted(line).is_some() => {}
            _ => self.kept.push(kept(line)),
        }
    }

    /// None, and nothing changed, if the line is one to keep.
    fn sort_in_converted(&mut self, line: &Line) -> Option<()> {
        match line.name.as_str() {
            "FN" if self.full.is_none() && names_of(line).is_empty() => {
                let value = respell(&line.value, Semicolon::Bare)?;
                self.full = Some(Line::bare("FN", value));
            }
            "N" if self.name.is_none() && names_of(line).is_empty() => {
                self.name = Some(name::read_parts(&line.value)?);
            }
            "JSPROP" => {
                let line = jsprop::rewrite(line)?;
                let is_new = self.jsprops.iter().all(|old| old.params != line.params);
                self.jsprops.push(is_new.then_some(line)?);
            }
            _ => {
                let rule = entries::Rule::of(&line.name)?;
                let map = &mut self.maps[rule.map];
                map.push(rule.rewrite(line, map)?);
            }
        }
        Some(())
    }

    fn into_lines(mut self, made_uid: String) -> Vec<Line> {
        for (map, lines) in self.maps.iter_mut().enumerate() {
            entries::make_prop_ids(map, lines);
        }
        let uid = self.uid.unwrap_or_else(|| Line::bare("UID", made_uid));
        let full = self.full.unwrap_or_else(|| name::derived_full(&self.name));
        let name = self
            .name
            .map(|parts| Line::bare("N", name::write_parts(parts)));
        let mut lines = vec![uid];
        lines.extend(self.kind);
        lines.push(full);
        lines.extend(name);
        lines.extend(self.maps.into_iter().flatten());
        lines.extend(self.jsprops);
        lines.extend(self.kept);
        lines
    }
}
