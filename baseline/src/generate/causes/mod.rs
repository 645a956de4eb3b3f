//! Every cause of 11, 12 and 13 that 01 names, both sides of each room, and what
//! is just accepted. In JSON `'` stands for a double quote.

mod cards;
mod carried;
mod entries;
mod kept;

use super::known::{Cause, Change, How};
use super::rooms::ROOMS;

/// Every cause, with how to make texts of it.
pub fn causes() -> Vec<Cause> {
    let parts = [
        cards::not_json(),
        cards::not_a_card(),
        entries::not_an_entry(),
        kept::not_a_kept_line(),
        kept::would_convert(),
        carried::not_carried(),
        carried::accepted(),
        at_the_rooms(),
    ];
    parts.into_iter().flatten().collect()
}

fn changed(number: u32, name: &str, changes: Vec<Change>) -> Cause {
    Cause {
        number,
        name: name.to_string(),
        how: How::Changed(changes),
    }
}

fn put(place: &str, values: &[&'static str]) -> Change {
    Change::Put(place.to_string(), values.to_vec())
}

fn gone(place: &str) -> Change {
    Change::Drop(place.to_string())
}

/// A cause of one change: its name, the place, and the values to put there.
type Row = (&'static str, &'static str, &'static [&'static str]);

fn rows(number: u32, rows: &[Row]) -> Vec<Cause> {
    let row = |(name, place, values): &Row| changed(number, name, vec![put(place, values)]);
    rows.iter().map(row).collect()
}

const NO_STRING: &[&str] = &["1", "null", "true", "['a']", "{}"];
const NO_OBJECT: &[&str] = &["1", "null", "'a'", "[]", "false"];
const NO_ARRAY: &[&str] = &["1", "null", "'a'", "{}", "true"];

fn at_the_rooms() -> Vec<Cause> {
    let row = |(number, name, text)| Cause {
        number,
        name: String::from(name),
        how: How::Made(text),
    };
    ROOMS.into_iter().map(row).collect()
}
