//! Text of an input, made fit to be shown to a person.

/// Characters of a line that are shown at the most.
const LONGEST: usize = 60;

/// The text with U+FFFD for each character that would move a terminal's cursor, set
/// its colours or turn the direction of what follows.
pub fn printable(text: &str) -> String {
    let turns = |c| matches!(c, '\u{61c}' | '\u{200e}'..='\u{200f}' | '\u{2028}'..='\u{202e}' | '\u{2066}'..='\u{2069}');
    let shown = |c: char| {
        if c.is_control() || turns(c) {
            char::REPLACEMENT_CHARACTER
        } else {
            c
        }
    };
    text.chars().map(shown).collect()
}

/// The beginning of a line.
pub fn beginning(line: &[u8]) -> String {
    let text = String::from_utf8_lossy(line);
    let shown: String = text.chars().take(LONGEST).collect();
    let more = if text.chars().nth(LONGEST).is_some() {
        "..."
    } else {
        ""
    };
    printable(&shown) + more
}

/// The part of a line around its byte `at`, and below it a caret under that byte.
pub fn with_caret(line: &[u8], at: usize) -> [String; 2] {
    let at = at.min(line.len());
    let before: Vec<char> = String::from_utf8_lossy(&line[..at]).chars().collect();
    let after: Vec<char> = String::from_utf8_lossy(&line[at..]).chars().collect();
    let left = before.len().saturating_sub(LONGEST / 2);
    let right = after.len().min(LONGEST - (before.len() - left));
    let (dots, more) = (
        if left > 0 { "..." } else { "" },
        if right < after.len() { "..." } else { "" },
    );
    let shown: String = before[left..].iter().chain(&after[..right]).collect();
    let width = dots.len() + before.len() - left;
    [
        format!("{dots}{}{more}", printable(&shown)),
        " ".repeat(width) + "^",
    ]
}

/// The text in quotes, as JSON spells it, cut where it is long.
pub fn quoted(text: &str) -> String {
    let shown: String = text.chars().take(LONGEST).collect();
    let more = if text.chars().nth(LONGEST).is_some() {
        "..."
    } else {
        ""
    };
    let escaped = shown.replace('\\', "\\\\").replace('"', "\\\"");
    format!("\"{}{more}\"", printable(&escaped))
}

/// A control character by its number, and by its name where it has a common one.
pub fn control(c: char) -> String {
    let name = match c {
        '\0' => " (NUL)",
        '\t' => " (tab)",
        '\n' => " (a line feed)",
        '\r' => " (a carriage return)",
        '\u{1b}' => " (escape)",
        '\u{7f}' => " (delete)",
        _ => "",
    };
    format!("the control character {}{name}", u32::from(c))
}
