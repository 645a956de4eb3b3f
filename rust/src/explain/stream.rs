//! What a stream refuses: a card of a number, or a line outside of any.

use super::shown::beginning;
use super::{card, not_one_card, Explanation};
use crate::lines::{unfolded, Line};
use crate::{Reason, Refusal, CARD_BYTES, LAST_NUMBER};

/// Of the refused bytes only so many as a card may have are stored.
pub fn explain(
    refusal: Refusal,
    reason: Reason,
    number: usize,
    length: u64,
    stored: &[u8],
) -> Explanation {
    match reason {
        Reason::NotOneCard => outside(stored),
        Reason::LeftOpen | Reason::BadStemOrNumber | Reason::Unfit => Explanation::general(reason),
        Reason::OverRoom if number > LAST_NUMBER => Explanation::new(
            "A stream has at most 999,999 cards.",
            "Begin a new stream, with another stem.",
        ),
        Reason::OverRoom if length > CARD_BYTES as u64 => {
            card::too_large("The card has over 32,768 bytes.", &unfolded(stored))
        }
        _ => card::explain(refusal, reason, stored),
    }
}

/// A line that is not empty and stands before BEGIN:VCARD.
fn outside(line: &[u8]) -> Explanation {
    let line = Line::first(line).bytes;
    let shown = vec![beginning(&line)];
    let is_begin = |line: &[u8]| line.eq_ignore_ascii_case(b"BEGIN:VCARD");
    let first = line.split(|b| *b == b'\r').next().unwrap_or_default();
    let told = if let Some(other) = not_one_card::other_kind(&line) {
        other
    } else if is_begin(line.trim_ascii()) {
        let what = "White space stands beside BEGIN:VCARD on its line.";
        Explanation::new(what, "Take it away.")
    } else if is_begin(first) {
        let advice = "Save the cards with LF or CR LF at the end of each line.";
        Explanation::new("The lines end with CR alone.", advice)
    } else {
        let advice = "Look whether a card lacks its BEGIN:VCARD line, or take this line out.";
        Explanation::new("This line stands outside of any card.", advice)
    };
    told.placed(shown)
}
