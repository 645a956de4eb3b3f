//! What a run met, counted: refusal numbers by classes of their places, rooms, and
//! what else a kind tells.

use std::collections::BTreeMap;

#[derive(Default)]
pub struct Counts(BTreeMap<String, usize>);

impl Counts {
    pub fn one(&mut self, what: impl Into<String>) {
        *self.0.entry(what.into()).or_default() += 1;
    }

    pub fn add(&mut self, more: Counts) {
        for (what, times) in more.0 {
            *self.0.entry(what).or_default() += times;
        }
    }

    /// An answer of a card: its number, and what kind of line its place is.
    pub fn card_answer(&mut self, number: u32, place: usize) {
        self.one(at_line(number, place));
    }

    /// An answer of JSON of that length: its number, and where in the text its place
    /// is.
    pub fn json_answer(&mut self, number: u32, place: usize, length: usize) {
        self.one(at_byte(number, place, length));
    }

    pub fn missing(&self, must: Vec<String>) -> Vec<String> {
        must.into_iter().filter(|what| !self.0.contains_key(what)).collect()
    }

    /// A line for each; of very many, how many and the least.
    pub fn print(&self) {
        if self.0.len() > 80 {
            let least = self.0.values().min().copied().unwrap_or_default();
            println!("  {} causes, each at least {least} times", self.0.len());
            return;
        }
        for (what, times) in &self.0 {
            println!("  {what:<36} {times:>9}");
        }
    }
}

/// Numbers have two places, so that they stand in order.
fn named(number: u32) -> String {
    match number {
        0 => " 0 converted".to_string(),
        number => format!("{number:>2} refused"),
    }
}

/// A place that is a line: VERSION is 1; a line past 255 is one that no byte holds.
fn at_line(number: u32, place: usize) -> String {
    let class = match place {
        0 => return named(number),
        1 => FIRST,
        2 => SECOND,
        3..=255 => LATER,
        _ => PAST_255,
    };
    format!("{} {class}", named(number))
}

const FIRST: &str = "at the first line";
const SECOND: &str = "at the second line";
const LATER: &str = "at a later line";
const PAST_255: &str = "at a line past 255";

/// A place that is a byte of a text of that length. Only 11 has any but 0.
fn at_byte(number: u32, place: usize, length: usize) -> String {
    let class = match place {
        _ if number != 11 => return at_line(number, place),
        0 => AT_0,
        _ if place == length => AT_THE_END,
        1..=255 => INSIDE,
        256..=32_767 => FAR_INSIDE,
        _ => PAST_32_767,
    };
    format!("{} {class}", named(number))
}

const AT_0: &str = "at 0";
const INSIDE: &str = "inside, up to byte 255";
const FAR_INSIDE: &str = "inside, up to byte 32,767";
const PAST_32_767: &str = "inside, past byte 32,767";
const AT_THE_END: &str = "at the end of the text";

/// Numbers whose place is 0.
pub fn at_no_place(numbers: &[u32]) -> Vec<String> {
    numbers.iter().map(|&number| named(number)).collect()
}

/// Each kind of line that 4, 5, 7, 8 and 9 can name: 7 to 9 are sought after 6, so
/// that the first line is VERSION:4.0 then and has none of them.
pub fn at_each_line() -> Vec<String> {
    let after = [7, 8, 9].map(|number| (number, &[SECOND, LATER, PAST_255][..]));
    let any = [4, 5].map(|number| (number, &[FIRST, SECOND, LATER, PAST_255][..]));
    let all = any.into_iter().chain(after);
    all.flat_map(|(number, classes)| classes.iter().map(move |class| format!("{} {class}", named(number)))).collect()
}

/// Each kind of place that 11 can name.
pub fn at_each_byte() -> Vec<String> {
    let classes = [AT_0, INSIDE, FAR_INSIDE, PAST_32_767, AT_THE_END];
    classes.map(|class| format!("{} {class}", named(11))).to_vec()
}
