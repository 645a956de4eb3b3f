//! What stands between the two sides: a card by its meaning, already in the
//! normal form's terms (empty things gone, components by kind).

use crate::json::Value;
use crate::line::Line;
use crate::table::KINDS;
use std::collections::BTreeSet;

/// The values of each of N's seven parts, by the component kinds.
pub type Parts = [Vec<String>; KINDS.len()];

#[derive(Debug, Default)]
pub struct Contact {
    pub uid: String,
    pub kind: Option<String>,
    pub full: Option<String>,
    pub components: Parts,
    /// Keys and entries of the seven maps, in the table's order.
    pub maps: [Vec<(String, Entry)>; 7],
    pub members: Vec<(String, Value)>,
    /// Lines in the form of `kept::kept_form`.
    pub kept: Vec<Line>,
}

impl Contact {
    pub fn has_components(&self) -> bool {
        self.components.iter().any(|values| !values.is_empty())
    }
}

/// An entry of one of the seven maps.
#[derive(Debug)]
pub struct Entry {
    pub body: Body,
    /// Indices into `table::TYPES`: contexts and features together.
    pub types: BTreeSet<usize>,
    pub pref: Option<u8>,
}

#[derive(Debug)]
pub enum Body {
    Text(String),
    Title(String),
    Role(String),
    /// An empty name is an absent one.
    Organization {
        name: String,
        units: Vec<String>,
    },
}
