//! The lines of the seven maps.

use super::params::{names_of, value_type};
use super::spelling::{respell, Semicolon};
use crate::chars::is_key;
use crate::line::{Line, Param};
use crate::text;
use std::collections::HashSet;

const PREFIXES: [&str; 7] = ["NICK", "EMAIL", "PHONE", "LINK", "NOTE", "TITLE", "ORG"];

/// The TYPE values in the order the normal form writes them; contexts first.
const TYPE_ORDER: [&str; 9] = [
    "home",
    "work",
    "fax",
    "cell",
    "pager",
    "text",
    "textphone",
    "video",
    "voice",
];

/// What a property of the seven maps may have.
pub struct Rule {
    pub map: usize,
    types: &'static [&'static str],
    value_uri: bool,
    rewrite_value: fn(&Line) -> Option<String>,
}

impl Rule {
    pub fn of(name: &str) -> Option<Rule> {
        let (map, types, value_uri, rewrite_value): (usize, usize, bool, fn(&Line) -> _) =
            match name {
                "NICKNAME" => (0, 2, false, nickname_value),
                "EMAIL" => (1, 2, false, text_value),
                "TEL" => (2, 9, true, tel_value),
                "URL" => (3, 2, true, |line| Some(line.value.clone())),
                "NOTE" => (4, 0, false, text_value),
                "TITLE" | "ROLE" => (5, 0, false, text_value),
                "ORG" => (6, 0, false, org_value),
                _ => return None,
            };
        Some(Rule {
            map,
            types: &TYPE_ORDER[..types],
            value_uri,
            rewrite_value,
        })
    }

    /// The converted line, still without a made PROP-ID; None if it is one to
    /// keep.
    pub fn rewrite(&self, line: &Line, earlier: &[Line]) -> Option<Line> {
        let allowed = names_of(line)
            .into_iter()
            .all(|name| self.allows(name, line, earlier));
        let value = (self.rewrite_value)(line).filter(|_| allowed)?;
        let mut normal = Line::bare(&line.name, value);
        normal.params = self.normal_params(line);
        Some(normal)
    }

    /// Whether the parameters of that name are ones that convert.
    fn allows(&self, name: &str, line: &Line, earlier: &[Line]) -> bool {
        match name {
            "PROP-ID" => is_new_prop_id(line, earlier),
            "PREF" => !self.types.is_empty() && has_good_pref(line),
            "TYPE" => self.normal_types(line).is_some(),
            "VALUE" => self.value_uri && value_type(line).as_deref() == Some("uri"),
            _ => false,
        }
    }

    /// PROP-ID, PREF, TYPE, VALUE.
    fn normal_params(&self, line: &Line) -> Vec<Param> {
        let mut params = Vec::new();
        for name in ["PROP-ID", "PREF"] {
            let values = line.values_of(name);
            params.extend(values.iter().map(|value| Param::one(name, value)));
        }
        let types = self.normal_types(line).unwrap_or_default();
        if !types.is_empty() {
            params.push(Param {
                name: "TYPE".to_string(),
                values: types,
            });
        }
        if line.name == "TEL" && tel_uri(line).is_some() {
            params.push(Param::one("VALUE", "uri"));
        }
        params
    }

    /// All TYPE values, each once and in order; None if one is not listed.
    fn normal_types(&self, line: &Line) -> Option<Vec<String>> {
        let lower = line.values_of("TYPE").join(",").to_ascii_lowercase();
        let given: Vec<&str> = match line.values_of("TYPE").is_empty() {
            true => Vec::new(),
            false => lower.split(',').collect(),
        };
        let all_listed = given.iter().all(|name| self.types.contains(name));
        let in_order = self.types.iter().filter(|name| given.contains(name));
        all_listed.then(|| in_order.map(|name| name.to_string()).collect())
    }
}

fn is_new_prop_id(line: &Line, earlier: &[Line]) -> bool {
    let ids = line.values_of("PROP-ID");
    ids.len() == 1
        && is_key(ids[0])
        && earlier
            .iter()
            .all(|other| other.values_of("PROP-ID") != ids)
}

/// One of the hundred spellings.
fn has_good_pref(line: &Line) -> bool {
    let prefs = line.values_of("PREF");
    prefs.len() == 1 && (1..=100).any(|pref| pref.to_string() == prefs[0])
}

fn text_value(line: &Line) -> Option<String> {
    respell(&line.value, Semicolon::Bare)
}

/// A bare comma would be a second nickname.
fn nickname_value(line: &Line) -> Option<String> {
    let one_value = text::split(&line.value, ',').len() == 1;
    text_value(line).filter(|_| one_value)
}

fn tel_value(line: &Line) -> Option<String> {
    if value_type(line).is_some() {
        return tel_uri(line);
    }
    tel_uri(line).or_else(|| text_value(line))
}

/// The raw URI of a TEL that has VALUE=uri in its normal form.
fn tel_uri(line: &Line) -> Option<String> {
    let number = match value_type(line) {
        Some(_) => line.value.clone(),
        None => text::read(&line.value)?,
    };
    let is_uri = number.starts_with("tel:") && !number.contains('\n');
    is_uri.then_some(number)
}

/// The first part stays even if empty; empty units go.
fn org_value(line: &Line) -> Option<String> {
    let parts: Option<Vec<String>> = text::split(&line.value, ';')
        .into_iter()
        .map(|part| respell(part, Semicolon::Escaped))
        .collect();
    let mut parts = parts?;
    let units = parts.split_off(1);
    parts.extend(units.into_iter().filter(|unit| !unit.is_empty()));
    let value = parts.join(";");
    (!value.is_empty()).then_some(value)
}

/// Puts a PROP-ID first on the lines that have none.
pub fn make_prop_ids(map: usize, lines: &mut [Line]) {
    let mut taken: HashSet<String> = lines
        .iter()
        .flat_map(|line| line.values_of("PROP-ID"))
        .map(str::to_string)
        .collect();
    let mut number = 0;
    for line in lines {
        if !line.values_of("PROP-ID").is_empty() {
            continue;
        }
        let key = loop {
            number += 1;
            let key = format!("{}-{number}", PREFIXES[map]);
            if taken.insert(key.clone()) {
                break key;
            }
        };
        line.params.insert(0, Param::one("PROP-ID", &key));
    }
}
