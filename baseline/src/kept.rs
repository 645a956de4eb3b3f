//! Kept lines: those that vCardProps carries.

use crate::line::{Line, Param};

/// The line as it is kept: equal-named parameters merged at the place of the
/// first, VALUE last and in lower case, or gone when unknown.
pub fn kept_form(line: &Line) -> Line {
    let mut params: Vec<Param> = Vec::new();
    for param in line.params.iter().filter(|param| param.name != "VALUE") {
        match params.iter_mut().find(|first| first.name == param.name) {
            Some(first) => first.values.extend_from_slice(&param.values),
            None => params.push(param.clone()),
        }
    }
    if let Some(value_type) = value_type(line) {
        params.push(Param::one("VALUE", &value_type));
    }
    Line {
        params,
        ..line.clone()
    }
}

/// The VALUE parameter in lower case; "unknown" counts as absent.
pub fn value_type(line: &Line) -> Option<String> {
    let value = line.values_of("VALUE").first()?.to_ascii_lowercase();
    (value != "unknown").then_some(value)
}
