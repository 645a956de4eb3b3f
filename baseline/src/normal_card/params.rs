//! The parameters of a line as the normal form sees them.

use crate::line::{Line, Param};

/// The VALUE parameter in lower case, unless it is unknown.
pub fn value_type(line: &Line) -> Option<String> {
    let value = line.values_of("VALUE").first()?.to_ascii_lowercase();
    Some(value).filter(|value| value != "unknown")
}

/// The parameter names that count, each once, VALUE last.
pub fn names_of(line: &Line) -> Vec<&str> {
    let mut names: Vec<&str> = Vec::new();
    for param in &line.params {
        if param.name != "VALUE" && !names.contains(&param.name.as_str()) {
            names.push(&param.name);
        }
    }
    names.extend(value_type(line).map(|_| "VALUE"));
    names
}

/// FN;DERIVED=TRUE, which the normal form drops.
pub fn is_derived(line: &Line) -> bool {
    line.name == "FN"
        && line.group.is_none()
        && names_of(line) == ["DERIVED"]
        && line
            .values_of("DERIVED")
            .join(",")
            .eq_ignore_ascii_case("true")
}

/// A kept line: equal-named parameters merged, VALUE last and in lower case.
pub fn kept(line: &Line) -> Line {
    let values = |name: &str| match name {
        "VALUE" => value_type(line).into_iter().collect(),
        _ => line.values_of(name).iter().map(|v| v.to_string()).collect(),
    };
    let params = names_of(line).into_iter().map(|name| Param {
        name: name.to_string(),
        values: values(name),
    });
    Line {
        params: params.collect(),
        ..line.clone()
    }
}
