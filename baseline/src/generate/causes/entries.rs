//! No entry of its map (12).

use super::*;
use crate::table::{Map, MAPS};

pub fn not_an_entry() -> Vec<Cause> {
    let mut causes = rows(12, &TITLES_AND_ORGANIZATIONS);
    for map in MAPS {
        let named = |(what, change): (&str, Change)| {
            changed(12, &format!("{}: {what}", map.member()), vec![change])
        };
        causes.extend(shape(map).into_iter().map(named));
        causes.extend(keys(map).into_iter().map(named));
        causes.extend(pref_and_contexts(map).into_iter().map(named));
        causes.extend(features(map).into_iter().map(named));
    }
    causes
}

#[rustfmt::skip]
const TITLES_AND_ORGANIZATIONS: [Row; 9] = [
    ("an unlisted title kind", "titles>k>kind", &["'Title'", "''", "'boss'"]),
    ("a title kind is no string", "titles>k>kind", NO_STRING),
    ("an organisation without name and units", "organizations>k", &["{}"]),
    ("an organisation left empty", "organizations>k", &[
        "{'name':''}", "{'units':[]}", "{'name':'','units':[{'name':''}]}", "{'units':[{'name':''},{'name':''}]}",
    ]),
    ("units is no array", "organizations>k>units", NO_ARRAY),
    ("a unit is no object", "organizations>k>units>0", NO_OBJECT),
    ("a unit without name", "organizations>k>units>0", &["{}"]),
    ("a unit's name is no string", "organizations>k>units>1>name", NO_STRING),
    ("a unit with a member not above", "organizations>k>units>1>sortAs", &["'x'"]),
];

type Named = (&'static str, Change);

fn entry(map: Map, member: &str) -> String {
    format!("{}>k>{member}", map.member())
}

fn shape(map: Map) -> Vec<Named> {
    let text = entry(map, map.text_member());
    let mut causes = vec![
        ("no object", put(map.member(), NO_OBJECT)),
        (
            "an entry is no object",
            put(&format!("{}>k", map.member()), NO_OBJECT),
        ),
        ("a text is no string", put(&text, NO_STRING)),
        (
            "a member not above",
            put(&entry(map, "label"), &["'x'", "{}"]),
        ),
    ];
    if map != Map::Organizations {
        causes.push(("a text is missing", gone(&text)));
    }
    causes
}

fn keys(map: Map) -> Vec<Named> {
    let plain = match map {
        Map::Nicknames | Map::Titles | Map::Organizations => "{'name':'a'}",
        Map::Emails => "{'address':'a'}",
        Map::Phones => "{'number':'a'}",
        Map::Links => "{'uri':'a'}",
        Map::Notes => "{'note':'a'}",
    };
    let long = "k".repeat(256);
    let keys = ["", "a b", "é", "a.b", "a\u{1}", &long];
    let bad = keys.map(|key| {
        (
            "a bad key",
            put(&format!("{}>{key}", map.member()), &[plain]),
        )
    });
    bad.into()
}

#[rustfmt::skip]
fn pref_and_contexts(map: Map) -> Vec<Named> {
    let (contexts, pref) = (entry(map, "contexts"), entry(map, "pref"));
    if !map.takes_pref_and_type() {
        return vec![("contexts", put(&contexts, &["{'work':true}", "{}"])), ("pref", put(&pref, &["1"]))];
    }
    vec![
        ("contexts is no object", put(&contexts, NO_OBJECT)),
        ("an unlisted context", put(&contexts, &["{'home':true}", "{'Work':true}", "{'voice':true}", "{'':true}"])),
        ("a context that is not true", put(&contexts, &["{'work':false}", "{'work':1}", "{'work':null}", "{'work':'true'}"])),
        ("pref is no number", put(&pref, &["'1'", "null", "true", "[1]"])),
        ("pref is not spelled as PREF", put(&pref, &["0", "101", "1.0", "1e0", "1E2", "-1", "1000"])),
    ]
}

#[rustfmt::skip]
fn features(map: Map) -> Vec<Named> {
    let features = entry(map, "features");
    if !map.takes_features() {
        return vec![("features", put(&features, &["{'voice':true}", "{}"]))];
    }
    vec![
        ("features is no object", put(&features, NO_OBJECT)),
        ("an unlisted feature", put(&features, &["{'cell':true}", "{'work':true}", "{'Voice':true}", "{'':true}"])),
        ("a feature that is not true", put(&features, &["{'fax':false}", "{'fax':0}", "{'fax':null}"])),
    ]
}
