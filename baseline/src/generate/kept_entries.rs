//! Entries of vCardProps, mostly ones that a kept line gives.

use super::json_text::string;
use super::tree::{has, put, Members};
use super::{values, Rng};
use crate::json::Value;
use crate::table::MAPS;

const UNKNOWN_PROPERTIES: [&str; 4] = ["x-foo", "bday", "lang", "x"];
const KNOWN_PROPERTIES: [&str; 10] = [
    "fn", "n", "email", "tel", "jsprop", "org", "note", "url", "title", "nickname",
];
const RISKY_PROPERTIES: [&str; 7] = ["note", "fn", "begin", "uid", "X-foo", "jsprop", "tel"];

const GOOD_TYPES: [&str; 5] = ["unknown", "unknown", "text", "uri", "x-y"];
const BAD_TYPES: [&str; 3] = ["Text", "", "a b"];

const PARAM_NAMES: [&str; 8] = [
    "x-a", "language", "type", "pref", "prop-id", "jsptr", "derived", "sort-as",
];
const BAD_PARAM_NAMES: [&str; 4] = ["value", "X-A", "", "a b"];

const PARAM_VALUES: [&str; 12] = [
    "a", "", "b;c", "d:e,f", "é", "a\tb", "^n", "home", "TRUE", "1", "k", "x\\y",
];

/// `members` are those of the card before, to which some entries refer.
pub fn kept_entry(rng: &mut Rng, members: &Members) -> Value {
    let mut params = params(rng);
    let name = match rng.below(20) {
        0..=9 => rng.pick(&UNKNOWN_PROPERTIES),
        10..=16 => {
            put(&mut params, "x-k", Value::string("1"));
            rng.pick(&KNOWN_PROPERTIES)
        }
        17..=18 => return repeated_entry(rng, members),
        _ => rng.pick(&RISKY_PROPERTIES),
    };
    let value_type = rng.mostly(97, &GOOD_TYPES, &BAD_TYPES);
    let value = match rng.chance(92) {
        true => values::text(rng),
        false => string(rng),
    };
    rng.shuffle(&mut params);
    entry(name, params, value_type, &value)
}

fn entry(name: &str, params: Members, value_type: &str, value: &str) -> Value {
    Value::Array(vec![
        Value::string(name),
        Value::Object(params),
        Value::string(value_type),
        Value::string(value),
    ])
}

fn params(rng: &mut Rng) -> Members {
    let mut params = Members::new();
    if rng.chance(25) {
        let good = [
            Value::string("item1"),
            Value::Array(vec![Value::string("a-b")]),
        ];
        let bad = [Value::string("A"), Value::string(""), Value::Array(vec![])];
        put(&mut params, "group", rng.mostly(96, &good, &bad));
    }
    for _ in 0..rng.pick(&[0, 0, 1, 1, 2]) {
        let name = rng.mostly(98, &PARAM_NAMES, &BAD_PARAM_NAMES);
        if !has(&params, name) {
            put(&mut params, name, param_value(rng));
        }
    }
    params
}

fn param_value(rng: &mut Rng) -> Value {
    let bad = [
        Value::Array(vec![]),
        Value::Null,
        Value::string("a\"b"),
        Value::string("a\nb"),
    ];
    let mut one = || Value::string(rng.pick(&PARAM_VALUES));
    let (first, second) = (one(), one());
    match rng.below(40) {
        0 => rng.pick(&bad),
        1..=5 => Value::Array(vec![first]),
        6..=10 => Value::Array(vec![first, second]),
        _ => first,
    }
}

/// An entry that is kept only because something of its kind converts before,
/// or because its value cannot convert.
fn repeated_entry(rng: &mut Rng, members: &Members) -> Value {
    let map = rng.pick(&MAPS);
    let property = ["nickname", "email", "tel", "url", "note", "role", "org"][map as usize];
    let same_map = members.iter().find(|(name, _)| name == map.member());
    let entries = same_map.and_then(|(_, entries)| entries.as_object());
    if let Some((key, _)) = entries.and_then(|entries| entries.first()) {
        let params = vec![("prop-id".to_string(), Value::string(key))];
        return entry(property, params, "unknown", "a");
    }
    let pointer = rng.pick(&["a", "b", "uid", "/a"]);
    let (name, value) = rng.pick(&[
        ("jsprop", "1"),
        ("fn", "a"),
        ("fn", "\\x"),
        ("n", "a"),
        ("n", ";;"),
        ("n", "a;;;;;;;"),
        ("nickname", "a,b"),
        ("nickname", "a\\\\,b"),
        ("org", ";"),
    ]);
    let params = match name {
        "jsprop" => vec![("jsptr".to_string(), Value::string(pointer))],
        _ => Vec::new(),
    };
    entry(name, params, "unknown", value)
}
