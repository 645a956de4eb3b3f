//! An unfolded line: its grammar, and its writing with folds.

use crate::chars::{is_name, is_name_byte};
use crate::limits::{LINE_PARAMETERS, LINE_PARAMETER_VALUES};

/// A parameter; its name is in capitals.
#[derive(Debug, Clone, PartialEq, Eq)]
pub struct Param {
    pub name: String,
    pub values: Vec<String>,
}

impl Param {
    pub fn one(name: &str, value: &str) -> Param {
        Param {
            name: name.to_string(),
            values: vec![value.to_string()],
        }
    }
}

/// A line by its parts. Names are in capitals and the group in lower case,
/// since every rule ignores their case and the normal form writes them so.
#[derive(Debug, Clone, PartialEq, Eq)]
pub struct Line {
    pub group: Option<String>,
    pub name: String,
    pub params: Vec<Param>,
    pub value: String,
}

impl Line {
    /// A line without group or parameters.
    pub fn bare(name: &str, value: String) -> Line {
        Line {
            group: None,
            name: name.to_string(),
            params: Vec::new(),
            value,
        }
    }

    /// Reads a line by 01's grammar; None if it is off it, over its counts, or
    /// named BEGIN or END.
    pub fn read(text: &str) -> Option<Line> {
        let (first, mut rest) = read_name(text)?;
        let mut group = None;
        let mut name = first;
        if let Some(after_dot) = rest.strip_prefix('.') {
            group = Some(first.to_ascii_lowercase());
            (name, rest) = read_name(after_dot)?;
        }
        let mut params = Vec::new();
        while let Some(after_semicolon) = rest.strip_prefix(';') {
            let (param, after) = read_param(after_semicolon)?;
            params.push(param);
            rest = after;
        }
        let line = Line {
            group,
            name: name.to_ascii_uppercase(),
            params,
            value: rest.strip_prefix(':')?.to_string(),
        };
        let reserved = line.name == "BEGIN" || line.name == "END";
        (!reserved && line.is_within_counts()).then_some(line)
    }

    /// At most 32 parameters and 64 parameter values, as the grammar counts.
    pub fn is_within_counts(&self) -> bool {
        let values: usize = self.params.iter().map(|param| param.values.len()).sum();
        self.params.len() <= LINE_PARAMETERS && values <= LINE_PARAMETER_VALUES
    }

    /// All values of the parameters of one name.
    pub fn values_of(&self, name: &str) -> Vec<&str> {
        self.params
            .iter()
            .filter(|param| param.name == name)
            .flat_map(|param| param.values.iter().map(String::as_str))
            .collect()
    }

    /// The line unfolded, with quotes only where needed.
    pub fn write(&self) -> String {
        let mut text = String::new();
        if let Some(group) = &self.group {
            text.push_str(group);
            text.push('.');
        }
        text.push_str(&self.name);
        for param in &self.params {
            text.push(';');
            text.push_str(&param.name);
            for (index, value) in param.values.iter().enumerate() {
                text.push(if index == 0 { '=' } else { ',' });
                write_param_value(&param.name, value, &mut text);
            }
        }
        text.push(':');
        text.push_str(&self.value);
        text
    }
}

fn read_name(text: &str) -> Option<(&str, &str)> {
    let end = text
        .bytes()
        .position(|byte| !is_name_byte(byte))
        .unwrap_or(text.len());
    let (name, rest) = text.split_at(end);
    is_name(name).then_some((name, rest))
}

fn read_param(text: &str) -> Option<(Param, &str)> {
    let (name, rest) = read_name(text)?;
    let mut rest = rest.strip_prefix('=')?;
    let mut values = Vec::new();
    loop {
        let (value, after) = read_param_value(rest)?;
        values.push(value.to_string());
        match after.strip_prefix(',') {
            Some(next) => rest = next,
            None => {
                let name = name.to_ascii_uppercase();
                return Some((Param { name, values }, after));
            }
        }
    }
}

/// A quoted value up to its closing quote, or a bare one, perhaps empty, up to
/// the first character that it cannot hold.
fn read_param_value(text: &str) -> Option<(&str, &str)> {
    if let Some(quoted) = text.strip_prefix('"') {
        return quoted.split_once('"');
    }
    let end = text.find(['"', ';', ':', ',']).unwrap_or(text.len());
    Some(text.split_at(end))
}

/// JSPTR is always quoted, as RFC 9555 demands; others where they must be.
fn write_param_value(name: &str, value: &str, text: &mut String) {
    let quoted = name == "JSPTR" || value.contains([';', ':', ',']);
    let quote = if quoted { "\"" } else { "" };
    text.extend([quote, value, quote]);
}

/// Folds at 75 bytes at the latest whole character, the leading space counted,
/// and ends the line with CR LF.
pub fn fold(line: &str, out: &mut String) {
    let mut rest = line;
    let mut room = 75;
    while rest.len() > room {
        let mut cut = room;
        while !rest.is_char_boundary(cut) {
            cut -= 1;
        }
        out.push_str(&rest[..cut]);
        out.push_str("\r\n ");
        rest = &rest[cut..];
        room = 74;
    }
    out.push_str(rest);
    out.push_str("\r\n");
}

#[cfg(test)]
mod tests {
    use super::*;

    #[test]
    fn a_line_is_read_by_its_parts() {
        let line = Line::read("Item1.x-a;p=a,\"b;:,\";Q==\\ \t:v:w").unwrap();
        assert_eq!(line.group.as_deref(), Some("item1"));
        assert_eq!(line.name, "X-A");
        assert_eq!(line.values_of("P"), ["a", "b;:,"]);
        assert_eq!(line.values_of("Q"), ["=\\ \t"]);
        assert_eq!(line.value, "v:w");
        assert_eq!(line.write(), "item1.X-A;P=a,\"b;:,\";Q==\\ \t:v:w");
    }

    #[test]
    fn off_the_grammar() {
        let bad = [
            "",
            "X",
            ":v",
            "X_Y:v",
            ".X:v",
            "a.:v",
            "a.b.c:v",
            " X:v",
            "X ;P=1:v",
            "X;:v",
            "X;P:v",
            "X;P=a",
            "X;P=\"a\"b:v",
            "X;P=a\"b:v",
            "X;P=\"a:v",
            "X;=a:v",
            "é:v",
            "TEL;HOME:1",
            "begin:VCARD",
            "a.end:x",
            "BEGIN;X=1:VCARD",
            "END:VCARD ",
        ];
        for text in bad {
            assert_eq!(Line::read(text), None, "{text}");
        }
    }

    #[test]
    fn values_are_counted_over_the_whole_line() {
        let values = |count: usize| vec!["v"; count].join(",");
        let line = |a, b| format!("X;A={};B={}:", values(a), values(b));
        assert!(Line::read(&line(40, 24)).is_some());
        assert!(Line::read(&line(40, 25)).is_none());
        assert!(Line::read(&format!("X{}:", ";A=".repeat(32))).is_some());
        assert!(Line::read(&format!("X{}:", ";A=".repeat(33))).is_none());
    }

    #[test]
    fn jsptr_is_always_quoted_and_empty_values_are_bare() {
        let line = Line::read("X;JSPTR=a,b;P=\"\";Q=\"q\":").unwrap();
        assert_eq!(line.write(), "X;JSPTR=\"a\",\"b\";P=;Q=q:");
    }

    fn folded(line: &str) -> String {
        let mut out = String::new();
        fold(line, &mut out);
        out
    }

    #[test]
    fn exactly_75_bytes_are_not_folded() {
        let line = "a".repeat(75);
        assert_eq!(folded(&line), format!("{line}\r\n"));
        assert_eq!(folded(&format!("{line}b")), format!("{line}\r\n b\r\n"));
        let long = "a".repeat(75 + 74 + 1);
        let pieces = format!("{line}\r\n {}\r\n a\r\n", "a".repeat(74));
        assert_eq!(folded(&long), pieces);
    }

    #[test]
    fn a_character_is_never_cut() {
        let line = format!("{}é", "a".repeat(74));
        assert_eq!(folded(&line), format!("{}\r\n é\r\n", "a".repeat(74)));
    }
}
