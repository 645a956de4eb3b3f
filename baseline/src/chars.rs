//! The small character classes that several rules share.

/// Groups, property names, parameter names, VALUE and KIND: letters, digits,
/// hyphens, at least one.
pub fn is_name(text: &str) -> bool {
    !text.is_empty() && text.bytes().all(is_name_byte)
}

pub fn is_name_byte(byte: u8) -> bool {
    byte.is_ascii_alphanumeric() || byte == b'-'
}

/// A name as the JSON side spells it: without capitals.
pub fn is_lower_name(text: &str) -> bool {
    is_name(text) && !text.bytes().any(|byte| byte.is_ascii_uppercase())
}

/// The keys of the seven maps, and so the valid PROP-IDs.
pub fn is_key(text: &str) -> bool {
    (1..=255).contains(&text.len()) && text.bytes().all(|byte| is_name_byte(byte) || byte == b'_')
}

/// The stem from which a missing UID is made.
pub fn is_stem(stem: &[u8]) -> bool {
    (1..=200).contains(&stem.len())
        && stem
            .iter()
            .all(|&byte| is_name_byte(byte) || byte == b':' || byte == b'_')
}

/// Controls that no line may hold: 0 to 31 but tab, and 127. U+0080 to U+009F
/// are none.
pub fn is_control(character: char) -> bool {
    (character < ' ' && character != '\t') || character == '\u{7f}'
}

/// PREF and pref: 1 to 100 without a leading zero.
pub fn read_pref(text: &str) -> Option<u8> {
    let well_spelled = (1..=3).contains(&text.len())
        && text.bytes().all(|byte| byte.is_ascii_digit())
        && !text.starts_with('0');
    let pref = text.parse().ok().filter(|pref| (1..=100).contains(pref));
    pref.filter(|_| well_spelled)
}

#[cfg(test)]
mod tests {
    use super::*;

    #[test]
    fn pref_has_no_leading_zero_and_ends_at_100() {
        assert_eq!(read_pref("1"), Some(1));
        assert_eq!(read_pref("100"), Some(100));
        for bad in ["", "0", "01", "101", "256", "+1", "1.0", "1e0", " 1", "-1"] {
            assert_eq!(read_pref(bad), None, "{bad}");
        }
    }

    #[test]
    fn a_key_has_1_to_255_characters() {
        assert!(is_key("a_B-9"));
        assert!(is_key(&"k".repeat(255)));
        assert!(!is_key(&"k".repeat(256)));
        assert!(!is_key(""));
        assert!(!is_key("a:b"));
    }

    #[test]
    fn a_stem_takes_the_colon_but_no_dot() {
        assert!(is_stem(b"urn:a-b_C9"));
        assert!(is_stem(&[b'a'; 200]));
        assert!(!is_stem(&[b'a'; 201]));
        assert!(!is_stem(b""));
        assert!(!is_stem(b"a.b"));
    }
}
