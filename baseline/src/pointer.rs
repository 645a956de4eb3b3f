//! One part of an RFC 6901 pointer, as JSPTR carries it.

/// Decodes one non-empty part: no `/`, and `~` only as `~0` or `~1`.
pub fn read_part(raw: &str) -> Option<String> {
    if raw.is_empty() || raw.contains('/') {
        return None;
    }
    let mut name = String::new();
    let mut characters = raw.chars();
    while let Some(character) = characters.next() {
        match character {
            '~' => name.push(match characters.next()? {
                '0' => '~',
                '1' => '/',
                _ => return None,
            }),
            plain => name.push(plain),
        }
    }
    Some(name)
}

pub fn write_part(name: &str) -> String {
    name.replace('~', "~0").replace('/', "~1")
}

#[cfg(test)]
mod tests {
    use super::*;

    #[test]
    fn a_part_is_decoded_once() {
        assert_eq!(read_part("a~1b~01").as_deref(), Some("a/b~1"));
        for bad in ["", "/a", "a/b", "~", "~2", "a~"] {
            assert_eq!(read_part(bad), None, "{bad}");
        }
    }

    #[test]
    fn writing_undoes_reading() {
        assert_eq!(write_part("a/b~1"), "a~1b~01");
    }
}
