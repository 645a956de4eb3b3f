//! Outputs that are lent: how long, what stands in them before, and what must stand
//! in them afterwards.

use crate::raw::Told;
use crate::Compared;
use std::sync::OnceLock;
use thymebarrel::JSON_BYTES;
use thymebarrel_baseline as baseline;
use thymebarrel_baseline::generate::Rng;

/// Mostly a little more than is needed; now and then one that just fits, just does
/// not, or is any from none to full.
pub fn room(rng: &mut Rng, length: usize, full: usize) -> usize {
    match rng.below(20) {
        0 => length,
        1 => length.saturating_sub(1),
        2 => rng.below(length + 1),
        3 => rng.below(full + 1),
        4 => rng.pick(&[0, 1, full]),
        _ => length + 40,
    }
}

/// The class of a room for a result of that length; a refused input has none.
pub fn class(room: usize, length: usize, full: usize) -> &'static str {
    match room {
        0 => "room: none",
        _ if room == full => "room: full",
        _ if length == 0 => "room: any, and no result",
        _ if room == length => "room: just fits",
        _ if room + 1 == length => "room: one byte short",
        _ if room < length => "room: shorter",
        _ => "room: longer",
    }
}

/// All classes of rooms.
pub const CLASSES: [&str; 7] =
    ["room: none", "room: full", "room: any, and no result", "room: just fits", "room: one byte short", "room: shorter", "room: longer"];

/// An output that is not clear, so that a byte written too many is seen. It is cut
/// from one long run of noise, for the time's sake.
pub fn noise(rng: &mut Rng, room: usize) -> Vec<u8> {
    static LONG: OnceLock<Vec<u8>> = OnceLock::new();
    let long = LONG.get_or_init(|| (0..JSON_BYTES + 1_024).map(|k| (31 * k % 256) as u8).collect());
    let first = rng.below(256);
    long[first..first + room].to_vec()
}

/// Number, place, length and every byte of the output: the result at its front, and
/// beyond its length what stood there.
pub fn same(want: &baseline::Answer, got: Told, lent: &[u8], out: &[u8]) -> Compared {
    let (number, _, length) = got;
    let told = (want.number, want.place, want.bytes.len());
    if got != told {
        return Err(format!("number, place and length {told:?} against {got:?}"));
    }
    if out[..length] != want.bytes[..] {
        return Err(format!("{} against {}", want.bytes.escape_ascii(), out[..length].escape_ascii()));
    }
    if out[length..] != lent[length..] {
        return Err(format!("{number}: bytes beyond the length were written"));
    }
    Ok(())
}
