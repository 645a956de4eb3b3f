//! TEXT values spelled anew, without decoding them.

#[derive(Clone, Copy, PartialEq)]
pub enum Semicolon {
    Bare,
    Escaped,
}

/// Spells a TEXT anew with the escapes the writer uses; None if one is bad.
pub fn respell(raw: &str, semicolon: Semicolon) -> Option<String> {
    let mut spelled = String::new();
    let mut rest = raw.chars();
    while let Some(character) = rest.next() {
        match character {
            '\\' => match rest.next()? {
                '\\' => spelled.push_str("\\\\"),
                ',' => spelled.push_str("\\,"),
                ';' if semicolon == Semicolon::Escaped => spelled.push_str("\\;"),
                ';' => spelled.push(';'),
                'n' | 'N' => spelled.push_str("\\n"),
                _ => return None,
            },
            ',' => spelled.push_str("\\,"),
            plain => spelled.push(plain),
        }
    }
    Some(spelled)
}
