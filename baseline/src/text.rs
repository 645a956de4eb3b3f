//! TEXT values: their escapes, and the splitting at bare separators.

/// Reads `\\` `\,` `\;` `\n` `\N`; a bare comma or semicolon stands for itself.
/// None if an escape is bad.
pub fn read(raw: &str) -> Option<String> {
    let mut text = String::with_capacity(raw.len());
    let mut rest = raw;
    while let Some((plain, escape)) = rest.split_once('\\') {
        text.push_str(plain);
        match escape.bytes().next()? {
            escaped @ (b'\\' | b',' | b';') => text.push(escaped as char),
            b'n' | b'N' => text.push('\n'),
            _ => return None,
        }
        rest = &escape[1..];
    }
    text.push_str(rest);
    Some(text)
}

/// Escapes backslash, LF and comma.
pub fn write(text: &str) -> String {
    escape(text, "")
}

/// Escapes backslash, LF, comma and semicolon, as N and ORG need.
pub fn write_part(text: &str) -> String {
    escape(text, ";")
}

fn escape(text: &str, also: &str) -> String {
    let mut raw = String::new();
    for character in text.chars() {
        match character {
            '\n' => raw.push_str("\\n"),
            '\\' | ',' => raw.extend(['\\', character]),
            other if also.contains(other) => raw.extend(['\\', other]),
            plain => raw.push(plain),
        }
    }
    raw
}

/// Splits a raw value at the separators that no backslash stands before.
pub fn split(raw: &str, separator: char) -> Vec<&str> {
    let mut parts = Vec::new();
    let mut start = 0;
    let mut escaped = false;
    for (at, character) in raw.char_indices() {
        if escaped {
            escaped = false;
        } else if character == '\\' {
            escaped = true;
        } else if character == separator {
            parts.push(&raw[start..at]);
            start = at + 1;
        }
    }
    parts.push(&raw[start..]);
    parts
}

#[cfg(test)]
mod tests {
    use super::*;

    #[test]
    fn only_the_five_escapes_are_read() {
        assert_eq!(read(r"a\\\,\;\n\N,;").as_deref(), Some("a\\,;\n\n,;"));
        for bad in [r"\:", r"a\", r"\t", r"\é"] {
            assert_eq!(read(bad), None, "{bad}");
        }
    }

    #[test]
    fn semicolons_are_escaped_in_parts_only() {
        assert_eq!(write("a\\b,c;d\n"), r"a\\b\,c;d\n");
        assert_eq!(write_part("a\\b,c;d\n"), r"a\\b\,c\;d\n");
    }

    #[test]
    fn an_escaped_backslash_escapes_nothing() {
        assert_eq!(split(r"a\,b\\,c", ','), [r"a\,b\\", "c"]);
        assert_eq!(split("", ';'), [""]);
    }
}
