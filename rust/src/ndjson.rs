//! Lines of JSON, one for each card, as `thymebarrel stream` writes them: which part of a
//! line is the card. Such a line may be longer than the JSON in it may be, so the
//! library cannot be asked.

/// What a line holds.
#[derive(Debug, PartialEq)]
pub enum Held<'a> {
    /// A card: the member `card`, or the line itself.
    Card(&'a [u8]),
    /// That a card was refused, with its number.
    Refused(&'a [u8]),
}

pub fn held(line: &[u8]) -> Held<'_> {
    let members = members(line).unwrap_or_default();
    let find = |name: &[u8]| {
        members
            .iter()
            .find(|(other, _)| *other == name)
            .map(|(_, value)| *value)
    };
    match (find(b"@type"), find(b"card"), find(b"refused")) {
        (None, Some(card), _) => Held::Card(card),
        (None, None, Some(number)) => Held::Refused(number),
        _ => Held::Card(line),
    }
}

/// Whether this is the first of several lines: it wraps a card or a refusal, or it is a
/// whole object after which more comes.
pub fn is_line(line: &[u8], more: bool) -> bool {
    members(line).is_some() && (more || held(line) != Held::Card(line))
}

type Member<'a> = (&'a [u8], &'a [u8]);

/// The members of a line that is one object: the names as they are spelled, without
/// their quotes, and the values.
fn members(line: &[u8]) -> Option<Vec<Member<'_>>> {
    let inside = line.trim_ascii().strip_prefix(b"{")?.strip_suffix(b"}")?;
    let mut members = Vec::new();
    let mut rest = inside.trim_ascii();
    while !rest.is_empty() {
        let name = rest.strip_prefix(b"\"")?;
        let end = string_end(name)?;
        let value = name[end + 1..].trim_ascii_start().strip_prefix(b":")?;
        let length = value_length(value)?;
        members.push((&name[..end], value[..length].trim_ascii()));
        rest = match value[length..].split_first() {
            None => &[],
            Some((_, rest)) => rest.trim_ascii(),
        };
    }
    Some(members)
}

/// Where the quote stands that ends a string.
fn string_end(text: &[u8]) -> Option<usize> {
    let mut k = 0;
    loop {
        match text.get(k)? {
            b'"' => return Some(k),
            b'\\' => k += 2,
            _ => k += 1,
        }
    }
}

/// Up to the comma after a value, or the end. None where brackets do not match.
fn value_length(text: &[u8]) -> Option<usize> {
    let (mut k, mut depth) = (0, 0usize);
    while let Some(b) = text.get(k) {
        match b {
            b',' if depth == 0 => break,
            b'[' | b'{' => depth += 1,
            b']' | b'}' => depth = depth.checked_sub(1)?,
            b'"' => k += 1 + string_end(&text[k + 1..])?,
            _ => {}
        }
        k += 1;
    }
    (depth == 0).then_some(k)
}

#[cfg(test)]
mod tests {
    use super::*;

    #[test]
    fn what_a_line_holds() {
        let card = br#"{"number":1,"uid":"a\"}","card":{"uid":"]","x":[1,{}]}}"#;
        assert_eq!(held(card), Held::Card(br#"{"uid":"]","x":[1,{}]}"#));
        assert_eq!(held(br#"{"number":2,"refused":8}"#), Held::Refused(b"8"));
        let plain = br#"{"@type":"Card","card":1,"refused":2}"#;
        assert_eq!(held(plain), Held::Card(plain));
        assert!(is_line(card, false) && is_line(plain, true) && !is_line(plain, false));
        for other in [
            "{",
            "{\"a\":",
            "[]",
            "{\"a\"}",
            "{\"a\":]}",
            "{\"a\":\"}",
            "",
        ] {
            assert!(!is_line(other.as_bytes(), true), "{other}");
        }
    }
}
