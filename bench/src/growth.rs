//! Whether time grows with the input and no faster: inputs made to be slow, each at
//! four sizes, twice as many of one thing from one size to the next.

use crate::measure::alternating;
use crate::times::{self, grouped, Workload};
use std::fmt::Write;

/// How many of the thing there are.
const SIZES: [usize; 4] = [100, 200, 400, 800];

struct Kind {
    name: &'static str,
    /// The input with so many.
    input: fn(usize) -> Vec<u8>,
    service: for<'a> fn(&'static str, &'a [u8]) -> Workload<'a>,
}

const KINDS: [Kind; 10] = [
    Kind { name: "JSON: entries of a map, and kept lines with the last one's PROP-ID", input: keyed, service: times::json_to_card },
    Kind { name: "JSON: other members, and kept lines that point at the last", input: pointed, service: times::json_to_card },
    Kind { name: "JSON: components, surnames and second surnames by turns", input: surnames, service: times::json_to_card },
    Kind { name: "JSON: units of one organisation", input: units, service: times::json_to_card },
    Kind { name: "JSON: strings of escapes in one member", input: escapes, service: times::json_to_card },
    Kind { name: "JSON: escapes in one note", input: escaped_note, service: times::json_to_card },
    Kind { name: "JSON: names in one object, refused (12)", input: names, service: times::json_to_card },
    Kind { name: "card: as many surnames as second surnames in one N", input: surname_values, service: times::card_to_json },
    Kind { name: "card: units in one ORG", input: unit_values, service: times::card_to_json },
    Kind { name: "card: folds in one NOTE", input: folds, service: times::card_to_json },
];

/// Bytes, and microseconds of the baseline and of the library, at each size.
pub fn print() {
    println!("| microseconds, the library's / the baseline's | {} |", SIZES.map(|size| size.to_string()).join(" | "));
    println!("|---|---|---|---|---|");
    for kind in &KINDS {
        let mut row = format!("| {:<67}", kind.name);
        for size in SIZES {
            let input = (kind.input)(size);
            let mut work = (kind.service)(kind.name, &input);
            let [base, ours] = alternating(&mut work.sides[..2], 0.3)[..] else {
                unreachable!("two sides have two times")
            };
            let _ = write!(row, " | {} / {}", grouped(ours.round() as usize), grouped(base.round() as usize));
        }
        println!("{row} |");
    }
}

/// JSON of a card with these members.
fn card(members: &str) -> Vec<u8> {
    format!(r#"{{"@type":"Card","version":"1.0","uid":"u",{members}}}"#).into_bytes()
}

/// So many, with commas between them.
fn listed(count: usize, one: impl Fn(usize) -> String) -> String {
    (0..count).map(one).collect::<Vec<_>>().join(",")
}

pub fn keyed(count: usize) -> Vec<u8> {
    let entries = listed(count, |index| format!(r#""k{index}":{{"number":"1"}}"#));
    let kept = listed(count, |_| format!(r#"["tel",{{"prop-id":"k{}"}},"unknown","1"]"#, count - 1));
    card(&format!(r#""phones":{{{entries}}},"vCardProps":[{kept}]"#))
}

fn pointed(count: usize) -> Vec<u8> {
    let members = listed(count, |index| format!(r#""m{index}":1"#));
    let kept = listed(count, |_| format!(r#"["jsprop",{{"jsptr":"m{}"}},"unknown","1"]"#, count - 1));
    card(&format!(r#"{members},"vCardProps":[{kept}]"#))
}

pub fn surnames(count: usize) -> Vec<u8> {
    let kinds = ["surname", "surname2"];
    let components = listed(count, |index| format!(r#"{{"kind":"{}","value":"a{index}"}}"#, kinds[index % 2]));
    card(&format!(r#""name":{{"components":[{components}]}}"#))
}

fn units(count: usize) -> Vec<u8> {
    let units = listed(count, |index| format!(r#"{{"name":"a{index}"}}"#));
    card(&format!(r#""organizations":{{"k":{{"units":[{units}]}}}}"#))
}

fn escapes(count: usize) -> Vec<u8> {
    let strings = listed(count, |_| r#""\ud83d\ude00\\\n\u0041""#.to_string());
    card(&format!(r#""m":[{strings}]"#))
}

fn escaped_note(count: usize) -> Vec<u8> {
    card(&format!(r#""notes":{{"k":{{"note":"{}"}}}}"#, r"\u00e9\u010d\n".repeat(count)))
}

fn names(count: usize) -> Vec<u8> {
    let members = listed(count, |index| format!(r#""m{index}":1"#));
    card(&format!(r#""name":{{{members}}}"#))
}

/// A card with one line more than it must have.
fn lines(line: &str) -> Vec<u8> {
    format!("BEGIN:VCARD\r\nVERSION:4.0\r\nFN:a\r\n{line}\r\nEND:VCARD\r\n").into_bytes()
}

pub fn surname_values(count: usize) -> Vec<u8> {
    let (family, second) = (listed(count, |index| format!("a{index}")), listed(count, |index| format!("b{index}")));
    lines(&format!("N:{family};;;;;{second}"))
}

fn unit_values(count: usize) -> Vec<u8> {
    lines(&format!("ORG:{}", listed(count, |index| format!("a{index}")).replace(',', ";")))
}

fn folds(count: usize) -> Vec<u8> {
    lines(&format!("NOTE:{}", "a\r\n b\\, ".repeat(count)))
}
