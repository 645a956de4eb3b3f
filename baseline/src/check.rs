//! Reads a card into its lines, seeking refusals 3, 1, 3 and 4 to 10 in this
//! order, each over all lines before the next.

use crate::chars::{is_control, is_name};
use crate::limits::{CARD_BYTES, CARD_LINES};
use crate::line::Line;
use crate::physical::{between_begin_and_end, unfold};
use crate::refusal::*;

/// The unfolded lines of a card, VERSION first, none of them refused.
pub fn read_card(input: &[u8]) -> Result<Vec<Line>, Refusal> {
    let supposed_lf = usize::from(!input.ends_with(b"\n"));
    if input.len() + supposed_lf > CARD_BYTES {
        return Err(Refusal::whole(OVER_ROOM));
    }
    let physical = between_begin_and_end(input).ok_or(Refusal::whole(NOT_ONE_CARD))?;
    let unfolded = unfold(&physical);
    if unfolded.len() > CARD_LINES {
        return Err(Refusal::whole(OVER_ROOM));
    }
    let texts = each(&unfolded, NOT_TEXT, |bytes| read_text(bytes))?;
    let lines = each(&texts, OFF_GRAMMAR, |text| Line::read(text))?;
    if !texts.first().is_some_and(|text| is_version_4(text)) {
        return Err(Refusal::whole(NOT_VERSION_4));
    }
    each(&lines, BAD_PARAMETER, |line| {
        has_good_parameters(line).then_some(())
    })?;
    check_repeats(&lines)?;
    each(&lines, BAD_UID_OR_KIND, |line| {
        has_good_value(line).then_some(())
    })?;
    if !lines.iter().any(|line| line.name == "FN") {
        return Err(Refusal::whole(NO_FN));
    }
    Ok(lines)
}

/// Reads every item; the first that cannot be read is the refusal's place.
fn each<'a, T, U>(
    items: &'a [T],
    number: u32,
    read: impl Fn(&'a T) -> Option<U>,
) -> Result<Vec<U>, Refusal> {
    items
        .iter()
        .enumerate()
        .map(|(index, item)| read(item).ok_or(Refusal::line(number, index)))
        .collect()
}

/// 4: UTF-8 without controls but tab.
pub fn read_text(bytes: &[u8]) -> Option<&str> {
    let text = std::str::from_utf8(bytes).ok()?;
    (!text.contains(is_control)).then_some(text)
}

/// 6: exactly VERSION:4.0, the name in any case.
fn is_version_4(text: &str) -> bool {
    text.eq_ignore_ascii_case("VERSION:4.0")
}

/// 7, for one line.
fn has_good_parameters(line: &Line) -> bool {
    let values = line.values_of("VALUE");
    let plain = line.group.is_none() && line.params.is_empty();
    let value_uri = line.group.is_none()
        && line.params.len() == 1
        && matches!(values[..], [value] if value.eq_ignore_ascii_case("uri"));
    let fits_name = match line.name.as_str() {
        "UID" => plain || value_uri,
        "KIND" => plain,
        _ => true,
    };
    let has_group_parameter = line.params.iter().any(|param| param.name == "GROUP");
    fits_name && !has_group_parameter && values.len() <= 1 && values.iter().all(|v| is_name(v))
}

/// 8: by name only, so a VERSION with a group is a second one too.
fn check_repeats(lines: &[Line]) -> Result<(), Refusal> {
    for (index, line) in lines.iter().enumerate() {
        let single = ["VERSION", "UID", "KIND"].contains(&line.name.as_str());
        if single && lines[..index].iter().any(|other| other.name == line.name) {
            return Err(Refusal::line(SECOND_OF_ITS_NAME, index));
        }
    }
    Ok(())
}

/// 9, for one line; both values are raw.
fn has_good_value(line: &Line) -> bool {
    match line.name.as_str() {
        "UID" => !line.value.is_empty(),
        "KIND" => is_name(&line.value),
        _ => true,
    }
}
