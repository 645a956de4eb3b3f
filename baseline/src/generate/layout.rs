//! Lays unfolded lines out as a card: folds anywhere, also inside characters,
//! either line end, any case of BEGIN and END, perhaps no last LF.

use super::Rng;

pub fn lay_out(rng: &mut Rng, lines: &[Vec<u8>]) -> Vec<u8> {
    let line_ends: &[&[u8]] = match rng.below(3) {
        0 => &[b"\n"],
        1 => &[b"\r\n"],
        _ => &[b"\n", b"\r\n"],
    };
    let folds_per_hundred = rng.pick(&[0, 0, 1, 8]);
    let mut card = rng.any_case("BEGIN:VCARD").into_bytes();
    card.extend_from_slice(rng.pick(line_ends));
    for line in lines {
        for byte in line {
            if rng.chance(folds_per_hundred) {
                fold(rng, line_ends, &mut card);
            }
            card.push(*byte);
        }
        if rng.chance(folds_per_hundred) {
            fold(rng, line_ends, &mut card);
        }
        card.extend_from_slice(rng.pick(line_ends));
    }
    card.extend_from_slice(rng.any_case("END:VCARD").as_bytes());
    match rng.below(10) {
        0 => {}
        1 => card.push(b'\r'),
        _ => card.extend_from_slice(rng.pick(line_ends)),
    }
    card
}

/// Before a line's first byte this leaves an empty physical line, which the
/// continuation joins.
fn fold(rng: &mut Rng, line_ends: &[&[u8]], card: &mut Vec<u8>) {
    card.extend_from_slice(rng.pick(line_ends));
    card.push(rng.pick(b" \t"));
}
