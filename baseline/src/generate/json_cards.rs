//! JSON cards as trees: all members of 01, mostly as they should be.

use super::json_entries::entries;
use super::json_text::{self, string};
use super::kept_entries::kept_entry;
use super::tree::{has, object, put, Members};
use super::Rng;
use crate::card_to_json::card_to_json;
use crate::json::{self, Value};
use crate::limits::{JSON_BYTES, JSON_DEPTH};
use crate::table::{KINDS, MAPS};

const UIDS: [&str; 5] = ["u", "urn:uuid:1", " ", "a,b\\", "é\t"];
const GOOD_KINDS: [&str; 4] = ["individual", "org", "x-foo", "1"];
const BAD_KINDS: [&str; 4] = ["Org", "", "a b", "a\n"];

const MEMBER_NAMES: [&str; 10] = [
    "a",
    "b",
    "a/b",
    "a~b",
    "example.com:foo",
    "é",
    "Uid",
    "x\ty",
    "a;b,c",
    "a b",
];
const ODD_MEMBER_NAMES: [&str; 5] = ["", "a\"b", "a\nb", "\u{7f}", "\u{80}"];

/// Few, so that a surname now and then equals a surname2.
const COMPONENTS: [&str; 15] = [
    "Foo", "Bar", "", "a,b", "a;b", "\\", "\n", "é", "Jr.", "x", "y", "z", "v", "w", "\"",
];

/// The JSON of a generated card, with its members in another order.
pub fn from_card(rng: &mut Rng) -> Value {
    for _ in 0..8 {
        let card = super::card(rng);
        let json = card_to_json(&card, b"gen", 1, JSON_BYTES).bytes;
        let tree = json::read(&json, JSON_DEPTH).map(|document| document.value);
        if let Ok(Value::Object(members)) = tree {
            return object(rng, members);
        }
    }
    card_tree(rng)
}

pub fn card_tree(rng: &mut Rng) -> Value {
    let mut members = Members::new();
    put(&mut members, "@type", Value::string("Card"));
    put(&mut members, "version", Value::string("1.0"));
    put(&mut members, "uid", Value::string(rng.pick(&UIDS)));
    if rng.chance(25) {
        let kind = rng.mostly(95, &GOOD_KINDS, &BAD_KINDS);
        put(&mut members, "kind", Value::string(kind));
    }
    if rng.chance(60) {
        put(&mut members, "name", name(rng));
    }
    for map in MAPS {
        if rng.chance(25) {
            put(&mut members, map.member(), entries(rng, map));
        }
    }
    for _ in 0..rng.pick(&[0, 0, 1, 1, 2]) {
        add_unknown_member(rng, &mut members);
    }
    if rng.chance(40) {
        let count = rng.below(4);
        let kept = (0..count).map(|_| kept_entry(rng, &members)).collect();
        put(&mut members, "vCardProps", Value::Array(kept));
    }
    object(rng, members)
}

fn add_unknown_member(rng: &mut Rng, members: &mut Members) {
    let name = rng.mostly(95, &MEMBER_NAMES, &ODD_MEMBER_NAMES);
    let value = match rng.below(12) {
        0 => nested(rng.pick(&[14, 15, 15, 16])),
        _ => json_text::value(rng, 3),
    };
    if !has(members, name) {
        put(members, name, value);
    }
}

fn nested(depth: usize) -> Value {
    (1..depth).fold(Value::Array(vec![]), |inner, _| Value::Array(vec![inner]))
}

fn name(rng: &mut Rng) -> Value {
    let mut members = Members::new();
    let has_components = rng.chance(65);
    if !has_components || rng.chance(60) {
        put(&mut members, "full", Value::String(string(rng)));
    }
    if has_components {
        let count = rng.below(6);
        let components = (0..count).map(|_| component(rng)).collect();
        put(&mut members, "components", Value::Array(components));
    }
    if rng.chance(12) {
        let ordered = rng.mostly(75, &[Value::Bool(false)], &[Value::Bool(true), Value::Null]);
        put(&mut members, "isOrdered", ordered);
    }
    object(rng, members)
}

fn component(rng: &mut Rng) -> Value {
    let kind = rng.mostly(99, &KINDS, &["separator", "Surname"]);
    let mut members = Members::new();
    put(&mut members, "kind", Value::string(kind));
    put(&mut members, "value", Value::string(rng.pick(&COMPONENTS)));
    object(rng, members)
}
