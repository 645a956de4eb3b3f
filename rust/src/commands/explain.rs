//! `thymebarrel explain`: what a refusal number means.

use super::{Command, Failure};
use crate::arguments::Arguments;
use crate::files;
use thymebarrel::{PlaceOf, Reason};

pub const COMMAND: Command = Command {
    name: "explain",
    words: "NUMBER [PLACE]",
    help: "what a refusal means, and what to do",
    about: "Says what the refusal of that number means, what its place counts, and what to do about it.",
    options: &[],
    run,
};

fn run(mut arguments: Arguments) -> Result<(), Failure> {
    let Some(word) = arguments.word() else {
        return Err(Failure::usage("explain needs a refusal number".to_string()));
    };
    let place = arguments.word();
    arguments.end()?;
    let word = word.to_string_lossy();
    let Some(reason) = word.parse().ok().and_then(Reason::of) else {
        return Err(Failure::usage(format!(
            "no refusal {word}: they are 1 to {}",
            Reason::ALL.len()
        )));
    };
    let place = match place {
        None => place_in_general(reason).to_string(),
        Some(word) => place_in_words(reason, &word.to_string_lossy())?,
    };
    let (number, meaning, advice) = (reason.number(), reason.meaning(), reason.advice());
    files::write_line(format!("{number}: {meaning}\n{place}\n{advice}").as_bytes())
}

fn place_in_general(reason: Reason) -> &'static str {
    match reason.place_of() {
        PlaceOf::Whole => "Place: 0, as it is of the whole.",
        PlaceOf::Line => "Place: the line. The one after BEGIN is 1; folded lines count once.",
        _ => "Place: how many bytes of the JSON are sound.",
    }
}

fn place_in_words(reason: Reason, word: &str) -> Result<String, Failure> {
    let Ok(place) = word.parse::<usize>() else {
        return Err(Failure::usage(format!("{word} is no place")));
    };
    match reason.place_of() {
        PlaceOf::Line if place > 0 => Ok(format!(
            "Place {place}: line {place} after BEGIN, folded lines counted once."
        )),
        PlaceOf::Byte => Ok(format!(
            "Place {place}: the byte after the first {place} of the JSON."
        )),
        PlaceOf::Whole if place == 0 => Ok(place_in_general(reason).to_string()),
        _ => Err(Failure::usage(format!(
            "refusal {} has no place {place}",
            reason.number()
        ))),
    }
}
