//! JSPROP.

use super::params::names_of;
use crate::json;
use crate::line::{Line, Param};
use crate::pointer;
use crate::text;

/// Top-level members that JSPROP cannot make.
const TAKEN_MEMBERS: [&str; 13] = [
    "@type",
    "version",
    "uid",
    "kind",
    "name",
    "nicknames",
    "emails",
    "phones",
    "links",
    "notes",
    "titles",
    "organizations",
    "vCardProps",
];

/// The converted line with compact JSON; None if it is one to keep.
pub fn rewrite(line: &Line) -> Option<Line> {
    let pointers = line.values_of("JSPTR");
    if names_of(line) != ["JSPTR"] || pointers.len() != 1 {
        return None;
    }
    let member = pointer::read_part(pointers[0])?;
    if TAKEN_MEMBERS.contains(&member.as_str()) {
        return None;
    }
    let document = json::read(text::read(&line.value)?.as_bytes(), 15).ok()?;
    let mut compact = String::new();
    json::write(&document.value, &mut compact);
    let value = compact.replace('\\', "\\\\").replace(',', "\\,");
    let mut jsprop = Line::bare("JSPROP", value);
    jsprop.params.push(Param::one("JSPTR", pointers[0]));
    Some(jsprop)
}
