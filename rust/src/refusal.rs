//! A refusal, and how it is told to a person.

use crate::explain::{self, Explanation};
use crate::{PlaceOf, Reason};
use std::fmt;

/// Why an input is refused: the number of the rules' table, and the place (see
/// [`Reason::place_of`]).
#[derive(Debug, Clone, Copy, PartialEq, Eq, Hash)]
pub struct Refusal {
    /// 1 to 16; see [`Reason`].
    pub number: u8,
    /// A line, a byte, or 0.
    pub place: usize,
}

impl Refusal {
    /// None only where the library that is linked gives a number that this crate does
    /// not know.
    pub fn reason(self) -> Option<Reason> {
        Reason::of(self.number)
    }

    /// What is wrong with this card, for which [`card_to_json`](crate::card_to_json) gave
    /// this refusal, and what to tell its sender.
    pub fn explain_card(self, card: impl AsRef<[u8]>) -> Explanation {
        match self.reason() {
            Some(reason) => explain::of_card(self, reason, card.as_ref()),
            None => explain::unknown(self),
        }
    }

    /// What is wrong with this JSON, for which [`json_to_card`](crate::json_to_card) gave
    /// this refusal, and what to do about it. Of 12 and 13 it names the member:
    ///
    /// ```
    /// let json = r#"{"@type":"Card","version":"1.0","uid":"u","emails":{"E":{"address":"a","label":"b"}}}"#;
    /// let told = thymebarrel::json_to_card(json).unwrap_err().explain_json(json);
    /// assert_eq!(told.pointer.as_deref(), Some("/emails/E/label"));
    /// assert_eq!(told.lines()[0], "emails.E.label: no member of an e-mail address");
    /// ```
    pub fn explain_json(self, json: impl AsRef<[u8]>) -> Explanation {
        match self.reason() {
            Some(reason) => explain::of_json(self, reason, json.as_ref()),
            None => explain::unknown(self),
        }
    }

    /// The same of what a stream refuses: a card of this number, or a line outside of
    /// any. Of its bytes only so many as a card may have were stored.
    pub(crate) fn explain_in_stream(
        self,
        number: usize,
        length: u64,
        stored: &[u8],
    ) -> Explanation {
        match self.reason() {
            Some(reason) => explain::in_stream(self, reason, number, length, stored),
            None => explain::unknown(self),
        }
    }
}

/// One line: number, place, meaning.
impl fmt::Display for Refusal {
    fn fmt(&self, f: &mut fmt::Formatter<'_>) -> fmt::Result {
        let Refusal { number, place } = self;
        let Some(reason) = self.reason() else {
            return write!(f, "refused {number} at {place}");
        };
        match reason.place_of() {
            PlaceOf::Line => write!(f, "refused {number}, line {place}: {}", reason.meaning()),
            PlaceOf::Byte => write!(f, "refused {number}, byte {place}: {}", reason.meaning()),
            PlaceOf::Whole => write!(f, "refused {number}: {}", reason.meaning()),
        }
    }
}

impl std::error::Error for Refusal {}
