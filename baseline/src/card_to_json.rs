//! Card to JSON.

use crate::chars::is_stem;
use crate::check::read_card;
use crate::contact::{Contact, Entry};
use crate::judge::{Judge, Verdict};
use crate::kept::kept_form;
use crate::limits::{JSON_BYTES, LAST_CARD_NUMBER};
use crate::line::Line;
use crate::refusal::*;
use crate::table::{Map, MAPS};
use crate::to_json;
use std::collections::HashSet;

/// Converts one card. `stem` and `number` make the UID of a card without one;
/// `room` is the length of the lent output.
pub fn card_to_json(input: &[u8], stem: &[u8], number: u64, room: usize) -> Answer {
    convert(input, stem, number, room).into()
}

fn convert(input: &[u8], stem: &[u8], number: u64, room: usize) -> Result<Vec<u8>, Refusal> {
    if !is_stem(stem) || !(1..=LAST_CARD_NUMBER).contains(&number) {
        return Err(Refusal::whole(BAD_STEM_OR_NUMBER));
    }
    let lines = read_card(input)?;
    let made_uid = format!("{}-{number}", String::from_utf8_lossy(stem));
    let json = to_json::write(&contact_of(&lines, made_uid)).into_bytes();
    if json.len() > JSON_BYTES {
        return Err(Refusal::whole(OVER_ROOM));
    }
    if json.len() > room {
        return Err(Refusal::whole(OUTPUT_TOO_SHORT));
    }
    Ok(json)
}

/// Entries whose keys are not all made yet.
type Drafts = Vec<(Option<String>, Entry)>;

fn contact_of(lines: &[Line], made_uid: String) -> Contact {
    let mut contact = Contact {
        uid: made_uid,
        ..Contact::default()
    };
    let mut judge = Judge::default();
    let mut drafts: [Drafts; 7] = Default::default();
    for line in lines {
        match line.name.as_str() {
            "VERSION" => {}
            "UID" => contact.uid = line.value.clone(),
            "KIND" => contact.kind = Some(line.value.to_ascii_lowercase()),
            _ => match judge.judge(line) {
                Verdict::Full(full) => contact.full = Some(full),
                Verdict::Components(parts) => contact.components = parts,
                Verdict::Entry(map, id, entry) => drafts[map as usize].push((id, entry)),
                Verdict::Member(name, value) => contact.members.push((name, value)),
                Verdict::Dropped => {}
                Verdict::Kept => contact.kept.push(kept_form(line)),
            },
        }
    }
    for (map, drafts) in MAPS.into_iter().zip(drafts) {
        contact.maps[map as usize] = with_keys(map, drafts);
    }
    contact
}

/// Makes the missing keys, once the PROP-IDs of all lines are known: the
/// smallest number that none of them and no earlier key has.
fn with_keys(map: Map, drafts: Drafts) -> Vec<(String, Entry)> {
    let taken: HashSet<String> = drafts.iter().filter_map(|(id, _)| id.clone()).collect();
    let mut free = (1..)
        .map(|number: u32| format!("{}-{number}", map.prefix()))
        .filter(|key| !taken.contains(key));
    drafts
        .into_iter()
        .filter_map(|(id, entry)| Some((id.or_else(|| free.next())?, entry)))
        .collect()
}
