//! Physical lines, the BEGIN and END lines, and unfolding. All on bytes, since
//! a fold may stand inside a character.

use std::borrow::Cow;

/// The contents of the physical lines. A line ends at LF, a CR just before
/// belongs to the end, and a missing last LF is supposed.
pub fn lines(input: &[u8]) -> Vec<&[u8]> {
    let body = input.strip_suffix(b"\n").unwrap_or(input);
    body.split(|&byte| byte == b'\n').map(without_cr).collect()
}

fn without_cr(line: &[u8]) -> &[u8] {
    line.strip_suffix(b"\r").unwrap_or(line)
}

/// The content of one line that still has its LF.
pub fn content(line: &[u8]) -> &[u8] {
    without_cr(line.strip_suffix(b"\n").unwrap_or(line))
}

pub fn is_begin(line: &[u8]) -> bool {
    line.eq_ignore_ascii_case(b"BEGIN:VCARD")
}

pub fn is_end(line: &[u8]) -> bool {
    line.eq_ignore_ascii_case(b"END:VCARD")
}

/// The physical lines between BEGIN and END, or None if the input is not one
/// card: BEGIN first, END last, no other such line.
pub fn between_begin_and_end(input: &[u8]) -> Option<Vec<&[u8]>> {
    let all = lines(input);
    let (first, rest) = all.split_first()?;
    let (last, middle) = rest.split_last()?;
    let one_card = is_begin(first)
        && is_end(last)
        && !middle.iter().any(|line| is_begin(line) || is_end(line));
    one_card.then(|| middle.to_vec())
}

/// Joins continuation lines to the line before, without their one blank. The
/// very first line has none before it, so its blank stays. A line without
/// continuation is borrowed from the input.
pub fn unfold<'a>(physical: &[&'a [u8]]) -> Vec<Cow<'a, [u8]>> {
    let mut unfolded: Vec<Cow<[u8]>> = Vec::new();
    for line in physical {
        match (line.first(), unfolded.last_mut()) {
            (Some(b' ' | b'\t'), Some(last)) => last.to_mut().extend_from_slice(&line[1..]),
            _ => unfolded.push(Cow::Borrowed(line)),
        }
    }
    unfolded
}

#[cfg(test)]
mod tests {
    use super::*;

    #[test]
    fn one_cr_belongs_to_the_end() {
        assert_eq!(lines(b"a\r\nb\r\r\n\nc\r"), [&b"a"[..], b"b\r", b"", b"c"]);
        assert_eq!(lines(b""), [b""]);
    }

    #[test]
    fn folds_vanish_inside_a_character() {
        assert_eq!(unfold(&[b"X:\xc3", b"\t\xa9", b" "]), ["X:é".as_bytes()]);
    }

    #[test]
    fn the_first_line_keeps_its_blank() {
        assert_eq!(unfold(&[b" a", b" b"]), [&b" ab"[..]]);
        assert_eq!(unfold(&[b"", b" b"]), [&b"b"[..]]);
    }
}
