//! The entries of the seven maps.

use super::json_text::string;
use super::tree::{has, object, put, Members};
use super::Rng;
use crate::json::Value;
use crate::table::{Map, CONTEXTS, TYPES};
use std::ops::Range;

const NUMBERS: [&str; 7] = [
    "tel:+1",
    "tel:1,2;ext=3",
    "+41 1",
    "tel:1\n2",
    "TEL:1",
    "tel:",
    "tel:1\t",
];

const GOOD_PREFS: [&str; 4] = ["1", "2", "50", "100"];
const BAD_PREFS: [&str; 6] = ["0", "101", "1.0", "1e0", "1E2", "-1"];

const EXTRA_MEMBERS: [&str; 7] = [
    "label",
    "@type",
    "features",
    "contexts",
    "pref",
    "vCardParams",
    "sortAs",
];

pub fn entries(rng: &mut Rng, map: Map) -> Value {
    let mut members = Members::new();
    for _ in 0..rng.pick(&[0, 1, 1, 1, 1, 2, 2, 3]) {
        let key = key(rng, map);
        if !has(&members, &key) {
            put(&mut members, &key, entry(rng, map));
        }
    }
    Value::Object(members)
}

fn key(rng: &mut Rng, map: Map) -> String {
    match rng.below(100) {
        0 => rng.pick(&["", "a b", "é", "a.b"]).to_string(),
        1 => "k".repeat(rng.pick(&[255, 256])),
        2..=60 => rng.pick(&["k", "a_b", "-", "K", "1"]).to_string(),
        _ => format!("{}-{}", map.prefix(), 1 + rng.below(3)),
    }
}

fn entry(rng: &mut Rng, map: Map) -> Value {
    let mut members = Members::new();
    match map {
        Map::Organizations => add_organization(rng, &mut members),
        _ => put(&mut members, map.text_member(), main_text(rng, map)),
    }
    if map == Map::Titles && rng.chance(60) {
        let kind = rng.mostly(95, &["title", "role"], &["Title", ""]);
        put(&mut members, "kind", Value::string(kind));
    }
    if map.takes_pref_and_type() {
        add_types(rng, &mut members, "contexts", 0..CONTEXTS);
    }
    if map.takes_pref_and_type() && rng.chance(25) {
        let pref = rng.mostly(93, &GOOD_PREFS, &BAD_PREFS);
        put(&mut members, "pref", Value::Number(pref.to_string()));
    }
    if map.takes_features() {
        add_types(rng, &mut members, "features", CONTEXTS..TYPES.len());
    }
    let extra = rng.pick(&EXTRA_MEMBERS);
    if rng.chance(1) && !has(&members, extra) {
        put(&mut members, extra, Value::Object(vec![]));
    }
    object(rng, members)
}

fn main_text(rng: &mut Rng, map: Map) -> Value {
    Value::String(match map {
        Map::Phones if rng.chance(80) => rng.pick(&NUMBERS).to_string(),
        Map::Links if rng.chance(90) => string(rng).replace('\n', "n"),
        _ => string(rng),
    })
}

fn add_organization(rng: &mut Rng, members: &mut Members) {
    let has_units = rng.chance(50);
    if !has_units || rng.chance(70) {
        let name = match rng.chance(85) {
            true => "ABC, Inc;".to_string(),
            false => string(rng),
        };
        put(members, "name", Value::String(name));
    }
    if has_units {
        let count = rng.below(4);
        let units = (0..count).map(|_| {
            let name = Value::String(string(rng));
            Value::Object(vec![("name".to_string(), name)])
        });
        put(members, "units", Value::Array(units.collect()));
    }
}

fn add_types(rng: &mut Rng, members: &mut Members, name: &str, which: Range<usize>) {
    if rng.chance(65) {
        return;
    }
    let mut types = Members::new();
    for known in &TYPES[which] {
        if rng.chance(40) {
            put(&mut types, known.json, Value::Bool(true));
        }
    }
    if rng.chance(3) {
        let (name, flag) = rng.pick(&[
            ("home", true),
            ("cell", true),
            ("private", false),
            ("Work", true),
            ("mobile", true),
        ]);
        types.retain(|(other, _)| other != name);
        put(&mut types, name, Value::Bool(flag));
    }
    rng.shuffle(&mut types);
    put(members, name, Value::Object(types));
}
