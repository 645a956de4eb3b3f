//! What the pieces work on: the parts of a card and of its JSON, as byte strings one
//! after the other, all made by the baseline before anything is measured.

use thymebarrel_baseline::limits::JSON_DEPTH;
use thymebarrel_baseline::pieces::{between_begin_and_end, read_json, read_text, unfold, Line, Map, Value};

/// Byte strings one after the other, with the place where each begins and the end of
/// the last.
pub struct Parts {
    pub bytes: Vec<u8>,
    pub starts: Vec<usize>,
}

impl Parts {
    pub fn of(parts: &[impl AsRef<[u8]>]) -> Parts {
        let (mut bytes, mut starts) = (Vec::new(), vec![0]);
        for part in parts {
            bytes.extend_from_slice(part.as_ref());
            starts.push(bytes.len());
        }
        Parts { bytes, starts }
    }

    pub fn count(&self) -> usize {
        self.starts.len() - 1
    }

    pub fn slices(&self) -> Vec<&[u8]> {
        self.starts.windows(2).map(|ends| &self.bytes[ends[0]..ends[1]]).collect()
    }

    /// The same, where they are known to be UTF-8.
    pub fn texts(&self) -> Vec<&str> {
        self.slices().into_iter().map(|part| std::str::from_utf8(part).expect("UTF-8")).collect()
    }
}

/// A card that converts, and its JSON.
pub struct Card {
    pub card: Vec<u8>,
    /// Its unfolded lines.
    pub lines: Parts,
    /// Those of the seven maps.
    pub map_lines: Parts,
    /// The values of all lines, raw, and what they stand for as TEXT.
    pub values: Parts,
    pub texts: Parts,
    pub json: Parts,
    pub tree: Value,
    /// The strings of the JSON, names and values, as spelled there and as they stand for.
    pub spelled: Parts,
    pub strings: Parts,
}

impl Card {
    pub fn new(json: Vec<u8>, card: Vec<u8>) -> Card {
        let lines = Parts::of(&unfold(&between_begin_and_end(&card).expect("one card")));
        let read: Vec<Line> = lines.texts().into_iter().map(|line| Line::read(line).expect("a line")).collect();
        let of_map = |line: &&str| Line::read(line).is_some_and(|line| Map::of_property(&line.name).is_some());
        let map_lines = Parts::of(&lines.texts().into_iter().filter(of_map).collect::<Vec<_>>());
        let values: Vec<&str> = read.iter().map(|line| line.value.as_str()).collect();
        let texts: Vec<String> = values.iter().map(|value| read_text(value).expect("TEXT")).collect();
        let (values, texts) = (Parts::of(&values), Parts::of(&texts));
        let tree = read_json(&json, JSON_DEPTH).expect("JSON").value;
        let mut strings = Vec::new();
        collect_strings(&tree, &mut strings);
        let (spelled, strings) = (Parts::of(&spelled_strings(&json)), Parts::of(&strings));
        Card { card, lines, map_lines, values, texts, json: Parts::of(&[json]), tree, spelled, strings }
    }
}

/// The strings of a JSON text with their quotes, in the order of the text.
fn spelled_strings(json: &[u8]) -> Vec<&[u8]> {
    let mut strings = Vec::new();
    let mut at = 0;
    while at < json.len() {
        let start = at;
        at += 1;
        if json[start] != b'"' {
            continue;
        }
        while json[at] != b'"' {
            at += if json[at] == b'\\' { 2 } else { 1 };
        }
        at += 1;
        strings.push(&json[start..at]);
    }
    strings
}

/// The strings of a tree, in the same order.
fn collect_strings<'a>(value: &'a Value, strings: &mut Vec<&'a str>) {
    match value {
        Value::String(text) => strings.push(text),
        Value::Array(items) => items.iter().for_each(|item| collect_strings(item, strings)),
        Value::Object(members) => members.iter().for_each(|(name, value)| {
            strings.push(name);
            collect_strings(value, strings);
        }),
        _ => {}
    }
}
