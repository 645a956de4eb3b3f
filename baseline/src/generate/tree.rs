//! Small helpers to build JSON objects.

use super::Rng;
use crate::json::Value;

pub type Members = Vec<(String, Value)>;

pub fn put(members: &mut Members, name: &str, value: Value) {
    members.push((name.to_string(), value));
}

pub fn has(members: &Members, name: &str) -> bool {
    members.iter().any(|(other, _)| other == name)
}

/// The members as an object, in another order now and then.
pub fn object(rng: &mut Rng, mut members: Members) -> Value {
    if rng.chance(50) {
        rng.shuffle(&mut members);
    }
    Value::Object(members)
}
