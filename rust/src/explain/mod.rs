//! What is wrong with a refused input, in words. The proved library has answered
//! before any of this is asked, and nothing here changes an answer: it looks at the
//! input for what the number and the place are about, and where it does not find
//! that, it says what the number means in general.

mod card;
mod not_a_card;
mod not_carried;
mod not_json;
mod not_kept;
mod not_one_card;
mod off_grammar;
mod path;
mod shape;
mod shown;
mod stream;
mod tree;
mod write;

use crate::{Reason, Refusal, JSON_BYTES};
use path::Fault;
use std::fmt;

pub use shown::printable;

/// What is wrong with an input and what to do about it. It is shown line by line:
///
/// ```
/// let card = b"BEGIN:VCARD\nVERSION:4.0\nUID:u\nUID:v\nEND:VCARD\n";
/// let refusal = thymebarrel::card_to_json("reg", 1, card).unwrap_err();
/// let told = "line 3 (line 4 counting BEGIN and folds): UID:v
/// A second UID line.
/// A card has one of each: take this line out, or send two cards.";
/// assert_eq!(refusal.explain_card(card).to_string(), told);
/// ```
#[derive(Debug, Clone, PartialEq, Eq)]
#[non_exhaustive]
pub struct Explanation {
    /// Where it is: a line of the input, perhaps with a caret below it, or the member of
    /// JSON; none where it is of the whole.
    pub place: Vec<String>,
    /// What is wrong.
    pub what: String,
    /// What to do about it, or what to tell the sender.
    pub advice: String,
    /// The member of JSON that is meant, as an RFC 6901 pointer.
    pub pointer: Option<String>,
}

impl Explanation {
    pub(crate) fn new(what: impl Into<String>, advice: &str) -> Explanation {
        Explanation {
            place: Vec::new(),
            what: what.into(),
            advice: advice.to_string(),
            pointer: None,
        }
    }

    fn general(reason: Reason) -> Explanation {
        Explanation::new(reason.meaning(), reason.advice())
    }

    fn of_member(fault: &Fault, advice: &str) -> Explanation {
        Explanation {
            place: vec![fault.place()],
            pointer: Some(fault.path.pointer()),
            ..Explanation::new(fault.what.clone(), advice)
        }
    }

    fn placed(self, place: Vec<String>) -> Explanation {
        Explanation { place, ..self }
    }

    /// The lines to show, each without its line end.
    pub fn lines(&self) -> Vec<String> {
        let (what, advice) = (self.what.clone(), self.advice.clone());
        match (&self.pointer, self.place.as_slice()) {
            (Some(_), [member]) => vec![format!("{member} {what}"), advice],
            _ => self.place.iter().cloned().chain([what, advice]).collect(),
        }
    }
}

impl fmt::Display for Explanation {
    fn fmt(&self, f: &mut fmt::Formatter<'_>) -> fmt::Result {
        write!(f, "{}", self.lines().join("\n"))
    }
}

/// Of a number that this crate does not know.
pub fn unknown(refusal: Refusal) -> Explanation {
    Explanation::new(
        refusal.to_string(),
        "Look it up in the documents of the library that is linked.",
    )
}

pub use card::explain as of_card;
pub use stream::explain as in_stream;

/// What is wrong with this JSON.
pub fn of_json(refusal: Refusal, reason: Reason, json: &[u8]) -> Explanation {
    let found = match reason {
        Reason::OverRoom if json.len() > JSON_BYTES => Some(Explanation::new(
            "The JSON has over 65,536 bytes.",
            reason.advice(),
        )),
        Reason::OverRoom => Some(Explanation::new(
            "The card would have over 32,768 bytes or 512 lines.",
            reason.advice(),
        )),
        Reason::NotJson => Some(not_json::explain(json, refusal.place)),
        Reason::NotACard => tree::read(json).and_then(|read| {
            let fault = not_a_card::fault(&read.value).or_else(|| not_kept::fault(&read.value))?;
            Some(Explanation::of_member(
                &fault,
                "Mend this member; docs/RULES.md, To vCard, says what a card may have.",
            ))
        }),
        Reason::NotCarried => tree::read(json).and_then(|read| {
            let fault = not_carried::fault(&read.value)?;
            let advice = match fault.what.ends_with("too") {
                true => "Leave one of the two out: the N line would lose it on its way back.",
                false => "Take the character out of this string: no line of a card can carry it.",
            };
            Some(Explanation::of_member(&fault, advice))
        }),
        _ => None,
    };
    found.unwrap_or_else(|| Explanation::general(reason))
}
