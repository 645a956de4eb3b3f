//! Every order of calls: of a stream's few kinds of calls all lists of a length, the
//! refused ones among them, each held to the baseline's reader.

use crate::counts::at_no_place;
use crate::streams::Run;
use crate::{Case, Compared};

/// One call: with a piece, an end call, or one that 15 or 16 refuses.
#[derive(Debug, Clone, Copy)]
enum Call {
    Piece(&'static [u8]),
    End,
    Refused,
}

/// Lines whole and cut, so that any two of them may meet in one line.
const CALLS: [Call; 11] = [
    Call::Piece(b"BEGIN:VCARD\n"),
    Call::Piece(b"begin:vcard"),
    Call::Piece(b"VERSION:4.0\nFN:a\n"),
    Call::Piece(b"END:VCARD\r\n"),
    Call::Piece(b"END:"),
    Call::Piece(b"VCARD"),
    Call::Piece(b"\r"),
    Call::Piece(b"\n"),
    Call::Piece(b"x\nBEGIN:VCARD\nEND:VCARD\n"),
    Call::End,
    Call::Refused,
];

/// All lists of the greatest length of which there are no more than that.
pub fn count(most: usize) -> usize {
    CALLS.len().pow(most.max(1).ilog(CALLS.len()))
}

pub fn must() -> Vec<String> {
    at_no_place(&[0, 1, 2, 15, 16])
}

pub fn compare(case: &mut Case) -> Compared {
    let calls = calls(case.index, case.count.ilog(CALLS.len()));
    let mut run = Run::new(&mut case.rng, b"reg", 0);
    ordered(case, &mut run, &calls).map_err(|why| format!("{calls:?}: {why}"))
}

/// The list of that index and length: the index's digits.
fn calls(index: usize, length: u32) -> Vec<Call> {
    (0..length).map(|digit| CALLS[index / CALLS.len().pow(digit) % CALLS.len()]).collect()
}

fn ordered(case: &mut Case, run: &mut Run, calls: &[Call]) -> Compared {
    for call in calls {
        match call {
            Call::Piece(bytes) => run.whole(bytes)?,
            Call::End => run.end()?,
            Call::Refused => {
                if let Some(number) = run.refused_call(&mut case.rng)? {
                    case.counts.card_answer(number, 0);
                }
            }
        }
    }
    for (number, place) in run.finish()? {
        case.counts.card_answer(number, place);
    }
    Ok(())
}
