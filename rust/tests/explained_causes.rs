//! Holds explanations to the library on many inputs: the member that is named is the one
//! whose repair makes the text accepted, and the column that is shown is the one up to
//! which the line was good. The texts are of the baseline's generators: every cause of
//! 12 and 13 that the rules name, each in many texts.

use thymebarrel::*;
use thymebarrel_baseline::generate::{self, Rng};
use thymebarrel_baseline::pieces::{read_json, write_json, Value};

const DEPTH: usize = 16;

fn tree(text: &str) -> Value {
    let text = text.replace('\'', "\"");
    let read = read_json(text.as_bytes(), DEPTH);
    read.unwrap_or_else(|at| panic!("{text}: no JSON at {at}"))
        .value
}

fn written(value: &Value) -> String {
    let mut text = String::new();
    write_json(value, &mut text);
    text
}

/// What may stand at a place in a card; none of it is right everywhere.
const GOOD: [&str; 20] = [
    "'a'",
    "'x-1'",
    "'Card'",
    "'1.0'",
    "'title'",
    "'given'",
    "1",
    "true",
    "false",
    "{}",
    "[]",
    "{'full':'a'}",
    "{'name':'a'}",
    "{'address':'a'}",
    "{'number':'1'}",
    "{'uri':'a'}",
    "{'note':'a'}",
    "['x',{},'unknown','v']",
    "{'kind':'given','value':'a'}",
    "'b'",
];

/// The tree with the part at this pointer put, or, with none, taken out.
fn repaired(tree: &Value, pointer: &str, with: Option<&Value>) -> Option<Value> {
    let mut tree = tree.clone();
    let Some((outer, last)) = pointer.rsplit_once('/') else {
        return with.cloned();
    };
    let plain = |part: &str| part.replace("~1", "/").replace("~0", "~");
    let mut at = &mut tree;
    for part in outer.split('/').skip(1) {
        at = match at {
            Value::Object(members) => {
                &mut members.iter_mut().find(|(name, _)| *name == plain(part))?.1
            }
            Value::Array(items) => items.get_mut(part.parse::<usize>().ok()?)?,
            _ => return None,
        };
    }
    let last = plain(last);
    match at {
        Value::Object(members) => {
            let found = members.iter().position(|(name, _)| *name == last);
            match (found, with) {
                (Some(k), Some(value)) => members[k].1 = value.clone(),
                (Some(k), None) => drop(members.remove(k)),
                (None, Some(value)) => members.push((last, value.clone())),
                (None, None) => return None,
            }
        }
        Value::Array(items) => {
            let k = last.parse::<usize>().ok().filter(|k| *k < items.len())?;
            match with {
                Some(value) => items[k] = value.clone(),
                None => drop(items.remove(k)),
            }
        }
        _ => return None,
    }
    Some(tree)
}

/// Whether some repair of the named part, and of it alone, is accepted, or refused only
/// for its size, which is sought last; or leads to a
/// text of which another part is named, and so on, up to so many in all.
fn is_the_cause(text: &[u8], pointer: &str, most: usize) -> bool {
    let tree_of_text = read_json(text, DEPTH)
        .expect("the library found JSON")
        .value;
    let good: Vec<Value> = GOOD.iter().map(|text| tree(text)).collect();
    let candidates = good.iter().map(Some).chain([None]);
    let mut repaired = candidates.filter_map(|with| repaired(&tree_of_text, pointer, with));
    repaired.any(|tree| {
        let text = written(&tree);
        match json_to_card(&text) {
            Ok(_) | Err(Refusal { number: 3, .. }) => true,
            Err(refusal) => {
                let next = refusal.explain_json(&text).pointer;
                let other = next.filter(|next| next != pointer && most > 1);
                other.is_some_and(|next| is_the_cause(text.as_bytes(), &next, most - 1))
            }
        }
    })
}

#[test]
fn the_named_member_is_the_one_whose_repair_is_accepted() {
    let mut rng = Rng::new(15);
    let mut checked = 0;
    for cause in generate::causes() {
        if cause.number != 12 && cause.number != 13 {
            continue;
        }
        for _ in 0..3 {
            let text = cause.text(&mut rng);
            let refusal = json_to_card(&text).expect_err(&cause.name);
            let told = refusal.explain_json(&text);
            let shown = String::from_utf8_lossy(&text);
            let pointer = told
                .pointer
                .as_deref()
                .unwrap_or_else(|| panic!("{}: {told}: {shown}", cause.name));
            assert!(
                is_the_cause(&text, pointer, 4),
                "{}: {told}: {shown}",
                cause.name
            );
            checked += 1;
        }
    }
    assert!(checked > 300, "{checked}");
}

/// Of generated texts with any number of faults: where the member is named, the text is
/// refused for that member alone, too; and it is always named.
#[test]
fn every_twelve_and_thirteen_is_named() {
    let mut rng = Rng::new(16);
    let mut counts = [0; 2];
    for _ in 0..20_000 {
        let text = generate::json(&mut rng);
        let Err(refusal) = json_to_card(&text) else {
            continue;
        };
        let told = refusal.explain_json(&text);
        if let 12 | 13 = refusal.number {
            assert!(
                told.pointer.is_some(),
                "{told}: {}",
                String::from_utf8_lossy(&text)
            );
            counts[usize::from(refusal.number) - 12] += 1;
        }
    }
    assert!(counts[0] > 500 && counts[1] > 100, "{counts:?}");
}

/// Ends of lines one of which fits every line that is good so far.
const ENDS: [&str; 9] = ["", ":", "a:", "=:", "=a:", "a=:", "\":", "\"", "x"];

fn converts_with(line: &[u8]) -> bool {
    let card = [b"BEGIN:VCARD\nVERSION:4.0\nFN:a\n", line, b"\nEND:VCARD\n"].concat();
    !card_to_json("reg", 1, card).is_err_and(|refusal| refusal.number == 5)
}

/// Lines of few characters, so that each way off the grammar is met: a cause is always
/// found, and up to the caret the line could still have become one.
#[test]
fn a_line_is_good_up_to_its_caret() {
    let mut rng = Rng::new(17);
    let parts = [
        "a", "B-1", ";", ":", "=", ",", "\"", ".", "_", " ", "é", "END", ";x=", "\t",
    ];
    let mut refused = 0;
    for _ in 0..20_000 {
        let line: String = (0..rng.below(9)).map(|_| rng.pick(&parts)).collect();
        if line.starts_with([' ', '\t']) || line.is_empty() {
            continue;
        }
        let card = format!("BEGIN:VCARD\nVERSION:4.0\nFN:a\n{line}\nEND:VCARD\n");
        let Err(refusal) = card_to_json("reg", 1, &card) else {
            continue;
        };
        if refusal.number != 5 {
            continue;
        }
        let told = refusal.explain_card(&card);
        let (_, column) = told.place[0]
            .split_once("column ")
            .unwrap_or_else(|| panic!("{line}: {told}"));
        let column: usize = column.trim_end_matches(':').parse().expect("a number");
        let before: String = line.chars().take(column - 1).collect();
        let good = ENDS
            .iter()
            .any(|end| converts_with(format!("{before}{end}").as_bytes()));
        assert!(good, "{line}: {told}");
        refused += 1;
    }
    assert!(refused > 5_000, "{refused}");
}

/// Whatever is refused is explained, and never with a character that moves a cursor.
#[test]
fn every_refusal_has_its_words() {
    let mut rng = Rng::new(18);
    let mut numbers = [0; 17];
    for _ in 0..20_000 {
        let mut card = generate::card(&mut rng);
        if rng.chance(30) {
            generate::damage(&mut rng, &mut card);
        }
        if let Err(refusal) = card_to_json("reg", 1, &card) {
            let lines = refusal.explain_card(&card).lines();
            assert!(
                lines.len() >= 2 && lines.iter().all(|line| printable(line) == *line),
                "{lines:?}"
            );
            assert!(refusal.number != 5 || lines.len() == 5, "{lines:?}");
            numbers[usize::from(refusal.number)] += 1;
        }
    }
    assert!(
        [1, 4, 5, 6, 7, 8, 9, 10]
            .iter()
            .all(|number| numbers[*number] > 20),
        "{numbers:?}"
    );
}

/// Of a text that is JSON otherwise, place 0 says nothing: the names or the half are found.
#[test]
fn a_surrogate_or_equal_names_are_found() {
    let mut rng = Rng::new(19);
    let mut found = 0;
    for cause in generate::causes() {
        if cause.number != 11 {
            continue;
        }
        for _ in 0..6 {
            let text = cause.text(&mut rng);
            let refusal = json_to_card(&text).expect_err(&cause.name);
            let told = refusal.explain_json(&text);
            let shown = String::from_utf8_lossy(&text);
            if refusal.place == 0
                && read_json(&text, DEPTH).is_err_and(|at| at == 0)
                && !text.is_empty()
                && text[0] == b'{'
            {
                let named = told.pointer.is_some() || told.what.contains("surrogate");
                assert!(named, "{}: {told}: {shown}", cause.name);
                found += 1;
            }
        }
    }
    assert!(found > 10, "{found}");
}
