//! What is wrong with a card: the line, and which case of its refusal it is.

use super::shown::{beginning, control, with_caret};
use super::{not_one_card, off_grammar, Explanation};
use crate::lines::{unfolded, Garbled, Line};
use crate::{PlaceOf, Reason, Refusal, CARD_BYTES, CARD_LINES};

const OLD: &str = "Export it as vCard 4.0. Versions 2.1 and 3.0 are not read.";

pub fn explain(refusal: Refusal, reason: Reason, card: &[u8]) -> Explanation {
    let lines = unfolded(card);
    let line = refusal.place.checked_sub(1).and_then(|k| lines.get(k));
    let told = match (reason, line) {
        (Reason::NotOneCard, _) => not_one_card::explain(card),
        (Reason::OverRoom, _) => Some(over_room(card, &lines)),
        (Reason::NotVersion4, _) => Some(not_version_4(&lines)),
        (_, Some(line)) if reason.place_of() == PlaceOf::Line => {
            Some(of_line(refusal, reason, line))
        }
        _ => None,
    };
    let told = told.unwrap_or_else(|| Explanation::general(reason));
    match (reason, old_version(&lines)) {
        (Reason::NotVersion4, _) | (_, None) => told,
        (_, Some(version)) => of_old(told, reason, version),
    }
}

/// To mend one thing does not help a card that is not read in any case.
fn of_old(told: Explanation, reason: Reason, version: &str) -> Explanation {
    let old = format!("It is a vCard {version} card. {OLD}");
    let advice = match reason {
        Reason::NotOneCard | Reason::OverRoom => format!("{} {old}", told.advice),
        _ => old,
    };
    Explanation { advice, ..told }
}

/// The version of a card that is older than 4.0 and says so.
fn old_version(lines: &[Line]) -> Option<&'static str> {
    let version = lines.iter().find(|line| line.name() == "VERSION")?;
    ["2.1", "3.0"]
        .into_iter()
        .find(|old| version.value().trim_ascii() == old.as_bytes())
}

fn not_version_4(lines: &[Line]) -> Explanation {
    if let Some(version) = old_version(lines) {
        return Explanation::new(format!("This is a vCard {version} card."), OLD);
    }
    let found = lines.iter().find(|line| line.name() == "VERSION");
    let (shown, what) = match (lines.first(), found) {
        (Some(first), Some(version)) if first.in_file != version.in_file => {
            (version, "VERSION is not the first line.")
        }
        (Some(first), _) => (first, Reason::NotVersion4.meaning()),
        _ => return Explanation::general(Reason::NotVersion4),
    };
    let place = format!(
        "line {} of the card: {}",
        shown.in_file,
        beginning(&shown.bytes)
    );
    let advice = "Make VERSION:4.0, without a parameter, the line after BEGIN:VCARD, if it is a vCard 4.0 card.";
    Explanation::new(what, advice).placed(vec![place])
}

fn of_line(refusal: Refusal, reason: Reason, line: &Line) -> Explanation {
    let place = format!(
        "line {} (line {} counting BEGIN and folds)",
        refusal.place, line.in_file
    );
    let shown = vec![format!("{place}: {}", beginning(&line.bytes))];
    let pointed = |at: usize| {
        let [text, caret] = with_caret(&line.bytes, at);
        let column = String::from_utf8_lossy(&line.bytes[..at]).chars().count() + 1;
        vec![
            format!("{place}, column {column}:"),
            format!("  {text}"),
            format!("  {caret}"),
        ]
    };
    let (what, advice, place) = match reason {
        Reason::NotText => match line.garbled() {
            Some((at, garbled)) => (of_garbled(at, &garbled), advice_of(&garbled), pointed(at)),
            None => return Explanation::general(reason).placed(shown),
        },
        Reason::OffGrammar => match off_grammar::fault(&line.bytes) {
            Some((at, what)) => (what, reason.advice(), pointed(at)),
            None => return Explanation::general(reason).placed(shown),
        },
        Reason::BadParameter => (bad_parameter(line).to_string(), reason.advice(), shown),
        Reason::Repeated => (
            format!("A second {} line.", line.name()),
            reason.advice(),
            shown,
        ),
        Reason::BadUidOrKind => (bad_value(line).to_string(), reason.advice(), shown),
        _ => return Explanation::general(reason).placed(shown),
    };
    Explanation::new(what, advice).placed(place)
}

fn of_garbled(at: usize, garbled: &Garbled) -> String {
    let at = at + 1;
    match garbled {
        Garbled::NotUtf8(b) => format!("Byte {at} of this line, {b:#04x}, is not UTF-8."),
        Garbled::Control(b) => format!("Byte {at} of this line is {}.", control(char::from(*b))),
    }
}

fn advice_of(garbled: &Garbled) -> &'static str {
    match garbled {
        Garbled::NotUtf8(_) => "Save the card as UTF-8: it may be in Latin-1 or Windows-1252.",
        Garbled::Control(_) => "Take the control character out of this line.",
    }
}

fn bad_parameter(line: &Line) -> &'static str {
    match line.name().as_str() {
        "UID" => "UID takes no group and no parameter but VALUE=uri.",
        "KIND" => "KIND takes no group and no parameter.",
        _ => "No line takes a GROUP parameter, and VALUE is one name.",
    }
}

fn bad_value(line: &Line) -> &'static str {
    match line.name().as_str() {
        "UID" => "UID is empty.",
        _ if line.value().is_empty() => "KIND is empty.",
        _ => "KIND has other than letters, digits and hyphens.",
    }
}

fn over_room(card: &[u8], lines: &[Line]) -> Explanation {
    let supposed = usize::from(!card.ends_with(b"\n"));
    if card.len() + supposed > CARD_BYTES {
        return too_large(
            "The card has over 32,768 bytes, its last line end counted.",
            lines,
        );
    }
    let before_end = |line: &&Line| !line.bytes.eq_ignore_ascii_case(b"END:VCARD");
    if lines.iter().take_while(before_end).count() > CARD_LINES {
        let what = "The card has over 512 lines, folded ones counted once.";
        return Explanation::new(what, "Leave out lines that are not needed.");
    }
    too_large("The card's JSON would have over 65,536 bytes.", lines)
}

/// With the longest line, which most often alone makes a card too large.
pub fn too_large(what: &str, lines: &[Line]) -> Explanation {
    let advice = Reason::OverRoom.advice();
    let longest = lines
        .iter()
        .enumerate()
        .max_by_key(|(_, line)| line.bytes.len());
    let Some((k, line)) = longest else {
        return Explanation::new(what, advice);
    };
    let (length, shown) = (line.bytes.len(), beginning(&line.bytes));
    let place = format!(
        "line {} (line {} counting BEGIN and folds)",
        k + 1,
        line.in_file
    );
    let place = format!("the longest line, {length} bytes, is {place}: {shown}");
    let advice = match line.is_named(&["PHOTO", "LOGO", "SOUND", "KEY", "NOTE"]) {
        true => format!(
            "{advice} The command does so with --without {}.",
            line.name()
        ),
        false => advice.to_string(),
    };
    Explanation::new(what, &advice).placed(vec![place])
}
