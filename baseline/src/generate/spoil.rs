//! Changes to one place of a JSON tree: another type, a member more or less,
//! an equal name, another order.

use super::json_text::{string, value};
use super::tree::Members;
use super::Rng;
use crate::json::Value;

pub fn spoil(rng: &mut Rng, tree: &mut Value) {
    let descend = rng.chance(60);
    match tree {
        Value::Object(members) if descend && !members.is_empty() => {
            let at = rng.below(members.len());
            spoil(rng, &mut members[at].1);
        }
        Value::Array(items) if descend && !items.is_empty() => {
            let at = rng.below(items.len());
            spoil(rng, &mut items[at]);
        }
        Value::Object(members) => spoil_object(rng, members),
        Value::Array(items) => spoil_array(rng, items),
        scalar => *scalar = value(rng, 1),
    }
}

fn spoil_object(rng: &mut Rng, members: &mut Members) {
    match rng.below(4) {
        0 if !members.is_empty() => drop(members.remove(rng.below(members.len()))),
        1 if !members.is_empty() => members.push(rng.pick(members)),
        2 => rng.shuffle(members),
        _ => members.push((string(rng), value(rng, 1))),
    }
}

fn spoil_array(rng: &mut Rng, items: &mut Vec<Value>) {
    match rng.below(4) {
        0 if !items.is_empty() => drop(items.remove(rng.below(items.len()))),
        1 if !items.is_empty() => items.push(rng.pick(items)),
        2 => rng.shuffle(items),
        _ => items.push(value(rng, 1)),
    }
}
