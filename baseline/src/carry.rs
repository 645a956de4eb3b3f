//! Refusal 13: strings that no vCard line can carry.

use crate::chars::is_control;
use crate::contact::{Body, Contact};
use crate::line::Line;
use crate::table::{Map, CREDENTIAL, GENERATION, MAPS, SURNAME, SURNAME2};

pub fn lines_can_carry(contact: &Contact) -> bool {
    fits_raw(&contact.uid)
        && contact.full.iter().all(|full| fits_text(full))
        && contact
            .components
            .iter()
            .flatten()
            .all(|value| fits_text(value))
        && components_stay_apart(contact)
        && MAPS.into_iter().all(|map| map_fits(map, contact))
        && contact.members.iter().all(|(name, _)| fits_parameter(name))
        && contact.kept.iter().all(kept_fits)
}

/// A raw value holds no control but tab.
pub fn fits_raw(text: &str) -> bool {
    !text.contains(is_control)
}

/// TEXT can hold LF too, escaped.
fn fits_text(text: &str) -> bool {
    !text.contains(|character| is_control(character) && character != '\n')
}

fn fits_parameter(text: &str) -> bool {
    fits_raw(text) && !text.contains('"')
}

/// Reading N would ignore a surname equal to a surname2 and a credential equal
/// to a generation. Empty values are gone already.
fn components_stay_apart(contact: &Contact) -> bool {
    let apart = |one: usize, other: usize| {
        let others = &contact.components[other];
        contact.components[one]
            .iter()
            .all(|value| !others.contains(value))
    };
    apart(SURNAME, SURNAME2) && apart(CREDENTIAL, GENERATION)
}

fn map_fits(map: Map, contact: &Contact) -> bool {
    let mut entries = contact.maps[map as usize].iter();
    entries.all(|(_, entry)| match &entry.body {
        Body::Text(uri) if map == Map::Links => fits_raw(uri),
        Body::Text(text) | Body::Title(text) | Body::Role(text) => fits_text(text),
        Body::Organization { name, units } => {
            fits_text(name) && units.iter().all(|unit| fits_text(unit))
        }
    })
}

fn kept_fits(line: &Line) -> bool {
    let mut values = line.params.iter().flat_map(|param| &param.values);
    fits_raw(&line.value) && values.all(|value| fits_parameter(value))
}
