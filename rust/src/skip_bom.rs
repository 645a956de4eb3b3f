//! A reader without the byte order mark at its beginning.

use std::io::{self, BufRead, Cursor, Read};

const BOM: &[u8] = b"\xef\xbb\xbf";

/// The input, where it is wanted without its byte order mark, and how many bytes were
/// taken away.
pub fn skip_bom(wanted: bool, mut input: Box<dyn BufRead>) -> io::Result<(Box<dyn BufRead>, u64)> {
    if !wanted {
        return Ok((input, 0));
    }
    let mut first = Vec::new();
    let looked_at = BOM.len() as u64;
    input.by_ref().take(looked_at).read_to_end(&mut first)?;
    let skipped = if first == BOM { BOM.len() } else { 0 };
    let rest = Cursor::new(first.split_off(skipped)).chain(input);
    Ok((Box::new(rest), skipped as u64))
}
