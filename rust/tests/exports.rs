//! examples/exports: cards as ten address books write them, to JSON and home.

mod common;
use common::*;
use std::collections::BTreeSet;
use thymebarrel::*;
use thymebarrel_baseline::pieces::{read_json, Value};

const EXPORTS: [&str; 10] = [
    "ios",
    "google",
    "nextcloud",
    "thunderbird",
    "proton",
    "kaddressbook",
    "evolution",
    "roundcube",
    "fastmail",
    "rfc6350",
];

fn export(name: &str) -> String {
    text(&sample(&format!("exports/{name}")))
}

#[test]
fn each_goes_out_and_comes_home() {
    for name in EXPORTS {
        let json = card_to_json("reg", 1, export(&format!("{name}.vcf"))).expect(name);
        assert_eq!(
            format!("{json}\n"),
            export(&format!("{name}.json")),
            "{name}"
        );
        let home = json_to_card(&json).expect(name);
        assert_eq!(home, export(&format!("home/{name}.vcf")), "{name}");
        assert_eq!(card_to_json("other", 2, &home), Ok(json), "{name}");
    }
    let folder = std::fs::read_dir(path("examples/exports")).expect("it is there");
    assert_eq!(folder.count(), 2 * EXPORTS.len() + 1);
}

/// The unfolded lines of a card: their names, how often each.
fn names(card: &str) -> Vec<String> {
    let unfolded = card.replace("\r\n ", "");
    let name = |line: &str| {
        let name = line.split([':', ';']).next().unwrap_or_default();
        name.rsplit('.')
            .next()
            .unwrap_or_default()
            .to_ascii_uppercase()
    };
    let mut names: Vec<String> = unfolded.lines().map(name).collect();
    names.sort();
    names
}

/// No line is lost: what comes home has every line of what went out, and a UID.
#[test]
fn no_line_is_lost() {
    for name in EXPORTS {
        let out = names(&export(&format!("{name}.vcf")));
        let mut home = names(&export(&format!("home/{name}.vcf")));
        let made: Vec<&str> = ["UID", "FN"]
            .into_iter()
            .filter(|made| count(&out, made) < count(&home, made))
            .collect();
        for made in &made {
            let at = home
                .iter()
                .position(|name| name == made)
                .expect("it is there");
            home.remove(at);
        }
        assert_eq!(home, out, "{name}: {made:?} made");
    }
}

fn count(names: &[String], name: &str) -> usize {
    names.iter().filter(|other| *other == name).count()
}

fn kept(name: &str) -> BTreeSet<String> {
    let json = export(&format!("{name}.json"));
    let Ok(Value::Object(members)) = read_json(json.as_bytes(), 16).map(|read| read.value) else {
        panic!("{name}: no object");
    };
    let kept = members.into_iter().find(|(name, _)| name == "vCardProps");
    let Some((_, Value::Array(entries))) = kept else {
        return BTreeSet::new();
    };
    let name = |entry: &Value| match entry {
        Value::Array(parts) => match &parts[0] {
            Value::String(name) => name.to_ascii_uppercase(),
            other => panic!("{other:?}"),
        },
        other => panic!("{other:?}"),
    };
    entries.iter().map(name).collect()
}

/// docs/USE.md lists by name which of their lines are kept: that list is held here.
#[test]
fn the_list_of_kept_lines_is_right() {
    let book = std::fs::read_to_string(path("docs/USE.md")).expect("it is there");
    for name in EXPORTS {
        let row = format!("| {name} | ");
        let row = book
            .lines()
            .find_map(|line| line.strip_prefix(&row))
            .unwrap_or_else(|| panic!("no row of {name}"));
        let listed: BTreeSet<String> = row
            .trim_end_matches(" |")
            .split(", ")
            .map(str::to_string)
            .collect();
        assert_eq!(listed, kept(name), "{name}");
    }
}
