//! Damage of single bytes and of lines.

use super::Rng;

/// One to three small injuries.
pub fn damage(rng: &mut Rng, bytes: &mut Vec<u8>) {
    for _ in 0..=rng.below(3) {
        match rng.below(6) {
            0 => insert(rng, bytes),
            1 => delete(rng, bytes),
            2 => change(rng, bytes),
            3 => duplicate_line(rng, bytes),
            4 => swap_lines(rng, bytes),
            _ => bytes.truncate(rng.below(bytes.len() + 1)),
        }
    }
}

/// A byte that matters to one of the grammars.
fn telling_byte(rng: &mut Rng) -> u8 {
    rng.pick(b"\n\r\t \\\",;:.=~/^[]{}0-1eEaZn\x00\x01\x1f\x7f\x80\xa9\xc0\xc3\xe0\xed\xf4\xff")
}

fn insert(rng: &mut Rng, bytes: &mut Vec<u8>) {
    let at = rng.below(bytes.len() + 1);
    bytes.insert(at, telling_byte(rng));
}

fn delete(rng: &mut Rng, bytes: &mut Vec<u8>) {
    if !bytes.is_empty() {
        bytes.remove(rng.below(bytes.len()));
    }
}

fn change(rng: &mut Rng, bytes: &mut [u8]) {
    if !bytes.is_empty() {
        bytes[rng.below(bytes.len())] = telling_byte(rng);
    }
}

fn lines(bytes: &[u8]) -> Vec<Vec<u8>> {
    bytes
        .split_inclusive(|&byte| byte == b'\n')
        .map(<[u8]>::to_vec)
        .collect()
}

fn duplicate_line(rng: &mut Rng, bytes: &mut Vec<u8>) {
    let mut lines = lines(bytes);
    if !lines.is_empty() {
        let line = rng.pick(&lines);
        lines.insert(rng.below(lines.len() + 1), line);
        *bytes = lines.concat();
    }
}

fn swap_lines(rng: &mut Rng, bytes: &mut Vec<u8>) {
    let mut lines = lines(bytes);
    if !lines.is_empty() {
        let (one, other) = (rng.below(lines.len()), rng.below(lines.len()));
        lines.swap(one, other);
        *bytes = lines.concat();
    }
}
