//! No JSON (11), no card or no name (12).

use super::*;

#[rustfmt::skip]
const NOT_JSON: [Row; 4] = [
    ("a surrogate alone in a string", "uid", &["'\\ue000'", "'a\\ue001b'", "'\\ue001\\ue000'"]),
    ("a surrogate alone in a member", "x", &["['\\ue000\\ue000']", "{'m':'\\ue001'}", "'\\ue000\\ud83d\\ude00'"]),
    ("a surrogate alone in a name", "x", &["{'\\ue000':1}"]),
    ("depth 17", "deep", &["[[[[[[[[[[[[[[[[]]]]]]]]]]]]]]]]", "[[[[[[[[[[[[[[[{}]]]]]]]]]]]]]]]"]),
];

const EQUAL_NAMES: [&str; 6] = [
    "uid",
    "a/b~c",
    "name>full",
    "emails>k",
    "phones>k>features>voice",
    "a/b~c>m",
];

pub fn not_json() -> Vec<Cause> {
    let equal = EQUAL_NAMES.map(|place| {
        let name = format!("equal names: {place}");
        changed(11, &name, vec![Change::Twice(place.to_string())])
    });
    let mut causes = rows(11, &NOT_JSON);
    causes.extend(equal);
    causes
}

#[rustfmt::skip]
const NOT_A_CARD: [Row; 26] = [
    ("no object", ".", &["[]", "'Card'", "1", "null", "[{}]", "{}"]),
    ("@type is another", "@type", &["'card'", "'Group'", "''"]),
    ("@type is no string", "@type", NO_STRING),
    ("version is another", "version", &["'2.0'", "'1'", "''"]),
    ("version is no string", "version", &["1.0", "1", "null"]),
    ("uid is empty", "uid", &["''"]),
    ("uid is no string", "uid", NO_STRING),
    ("kind is no string", "kind", NO_STRING),
    ("kind that no KIND line gives", "kind", &["'Org'", "''", "'a b'", "'a\\n'", "'é'", "'a_b'", "'a.b'"]),
    ("an empty member name", "", &["1", "{}"]),
    ("vCardProps is no array", "vCardProps", NO_ARRAY),
    ("name is no object", "name", NO_OBJECT),
    ("name without full and components", "name", &["{}", "{'isOrdered':false}"]),
    ("name: a member not above", "name>sortAs", &["{}"]),
    ("name: a member not above, @type", "name>@type", &["'Name'"]),
    ("full is no string", "name>full", NO_STRING),
    ("isOrdered is true", "name>isOrdered", &["true"]),
    ("isOrdered is no boolean", "name>isOrdered", &["0", "null", "'false'", "[]"]),
    ("components is no array", "name>components", NO_ARRAY),
    ("a component is no object", "name>components>1", NO_OBJECT),
    ("a component without kind", "name>components>1", &["{'value':'a'}"]),
    ("a component without value", "name>components>1", &["{'kind':'given'}"]),
    ("a component with a member not above", "name>components>1>phonetic", &["'a'"]),
    ("an unlisted component kind", "name>components>1>kind", &["'separator'", "'Given'", "''", "'surname3'"]),
    ("a component kind is no string", "name>components>1>kind", NO_STRING),
    ("a component value is no string", "name>components>1>value", NO_STRING),
];

pub fn not_a_card() -> Vec<Cause> {
    let missing = ["@type", "version", "uid"]
        .map(|name| changed(12, &format!("{name} is missing"), vec![gone(name)]));
    let mut causes = rows(12, &NOT_A_CARD);
    causes.extend(missing);
    causes
}
