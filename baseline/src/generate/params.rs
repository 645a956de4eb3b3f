//! Parameters, right and wrong, as they stand in a line.

use super::Rng;

const GOOD_PREFS: [&str; 5] = ["1", "2", "50", "99", "100"];
const BAD_PREFS: [&str; 10] = [
    "0", "01", "101", "", "1.0", "+1", "1,2", "\"1,1\"", "a", "1000",
];

const TYPES: [&str; 11] = [
    "home",
    "work",
    "home",
    "work",
    "cell",
    "fax",
    "pager",
    "text",
    "textphone",
    "video",
    "voice",
];
const OTHER_TYPES: [&str; 7] = ["mobile", "private", "msg", "", "home ", "main-number", "x"];

const OTHERS: [&str; 16] = [
    "LANGUAGE=en",
    "ALTID=1",
    "X-A=b",
    "x-a=c",
    "X-A=\"d;e:f,g\"",
    "X-B=",
    "X-B=\"\"",
    "SORT-AS=\"A,B\"",
    "JSPTR=a",
    "JSPTR=\"a/b\"",
    "DERIVED=TRUE",
    "DERIVED=true,true",
    "X-C=^n,~=\\",
    "X-D=é,😀",
    "MEDIATYPE=text/plain",
    "X-A=1,2,3",
];

const POINTERS: [&str; 12] = [
    "a",
    "b",
    "c",
    "a~1b",
    "a~0b",
    "example.com:foo",
    "é",
    "a b",
    "\u{80}",
    "a;b,c",
    "x\ty",
    "A",
];
const ODD_POINTERS: [&str; 12] = [
    "",
    "/a",
    "a/b",
    "~",
    "~2",
    "uid",
    "name",
    "@type",
    "phones",
    "vCardProps",
    "version",
    "kind",
];

/// Parameters for a property of the table or another, each with its semicolon.
pub fn params(rng: &mut Rng, property: &str) -> String {
    let count = rng.pick(&[0, 0, 0, 0, 1, 1, 1, 2, 2, 3]);
    (0..count)
        .map(|_| format!(";{}", param(rng, property)))
        .collect()
}

fn param(rng: &mut Rng, property: &str) -> String {
    let takes_types = ["NICKNAME", "EMAIL", "TEL", "URL"].contains(&property);
    let kind = match takes_types {
        true => rng.below(96),
        false => rng.pick(&[0, 0, 0, 0, 0, 0, 40, 60, 80, 95, 95]),
    };
    let (name, value) = match kind {
        0..=34 => ("PROP-ID", prop_id(rng, property)),
        35..=49 => ("PREF", pref(rng)),
        50..=77 => ("TYPE", types(rng)),
        78..=91 => ("VALUE", value_type(rng, property)),
        _ => return rng.pick(&OTHERS).to_string(),
    };
    format!("{}={value}", rng.any_case(name))
}

/// Puts quotes around a value that has none, now and then.
fn quoted(rng: &mut Rng, value: &str) -> String {
    match rng.chance(20) && !value.contains('"') {
        true => format!("\"{value}\""),
        false => value.to_string(),
    }
}

fn prop_id(rng: &mut Rng, property: &str) -> String {
    let prefix = match property {
        "NICKNAME" => "NICK",
        "TEL" => "PHONE",
        "URL" => "LINK",
        "ROLE" => "TITLE",
        other => other,
    };
    let id = match rng.below(20) {
        0..=11 => format!("{prefix}-{}", 1 + rng.below(4)),
        12..=15 => rng.pick(&["k", "k1", "a_b", "PHONE-01", "-"]).to_string(),
        16 => rng.pick(&["", "a b", "a.b", "é", "k,k", "a/b"]).to_string(),
        17 => "k".repeat(rng.pick(&[3, 3, 3, 255, 256])),
        _ => prefix.to_ascii_lowercase() + "-1",
    };
    quoted(rng, &id)
}

fn pref(rng: &mut Rng) -> String {
    let pref = rng.mostly(85, &GOOD_PREFS, &BAD_PREFS);
    quoted(rng, pref)
}

fn types(rng: &mut Rng) -> String {
    let count = rng.pick(&[1, 1, 1, 2, 2, 3]);
    let names: Vec<String> = (0..count)
        .map(|_| {
            let name = rng.mostly(95, &TYPES, &OTHER_TYPES);
            rng.any_case(name)
        })
        .collect();
    quoted(rng, &names.join(","))
}

/// Seldom one that refusal 7 catches.
fn value_type(rng: &mut Rng, property: &str) -> String {
    let value = match rng.below(40) {
        0 => rng.pick(&["", "a b", "\"a,b\"", "uri,uri", "é", "\"uri,\""]),
        1..=8 => rng.pick(&["text", "date-time", "uri", "x-foo"]),
        9..=16 => "unknown",
        _ if property == "TEL" || property == "URL" => "uri",
        _ => rng.pick(&["unknown", "text", "uri", "unknown"]),
    };
    let value = rng.any_case(value);
    quoted(rng, &value)
}

/// Parameters of a JSPROP line.
pub fn jsprop_params(rng: &mut Rng) -> String {
    let pointer = rng.mostly(85, &POINTERS, &ODD_POINTERS);
    let name = rng.any_case("JSPTR");
    let right = format!(";{name}=\"{pointer}\"");
    match rng.below(30) {
        0 => String::new(),
        1 => right + ";JSPTR=z",
        2 => format!(";{name}=a,b"),
        3 => format!("{right};{}", rng.pick(&OTHERS)),
        4 => right + ";VALUE=TEXT",
        5 => right + ";VALUE=Unknown",
        6 => format!(";{name}=a"),
        _ => right,
    }
}

/// Parameters of an FN line: often DERIVED, so that the dropping is reached.
pub fn fn_params(rng: &mut Rng) -> &'static str {
    const ODD: [&str; 13] = [
        ";DERIVED=TRUE",
        ";derived=True",
        ";DERIVED=\"TRUE\"",
        ";DERIVED=TRUE;VALUE=unknown",
        ";VALUE=unknown",
        ";VALUE=text",
        ";DERIVED=FALSE",
        ";DERIVED=TRUE,TRUE",
        ";DERIVED=TRUE;DERIVED=TRUE",
        ";LANGUAGE=en",
        ";PROP-ID=a",
        ";PREF=1",
        ";TYPE=work",
    ];
    match rng.chance(65) {
        true => "",
        false => rng.pick(&ODD),
    }
}
