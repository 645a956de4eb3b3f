//! JSON to card.

use crate::carry::lines_can_carry;
use crate::from_json::read_contact;
use crate::json;
use crate::limits::{CARD_BYTES, CARD_LINES, JSON_BYTES, JSON_DEPTH};
use crate::refusal::*;
use crate::to_card;

/// Converts one JSON card; `room` is the length of the lent output.
pub fn json_to_card(input: &[u8], room: usize) -> Answer {
    convert(input, room).into()
}

fn convert(input: &[u8], room: usize) -> Result<Vec<u8>, Refusal> {
    if input.len() > JSON_BYTES {
        return Err(Refusal::whole(OVER_ROOM));
    }
    let document = json::read(input, JSON_DEPTH).map_err(|place| Refusal {
        number: NOT_JSON,
        place,
    })?;
    let contact = read_contact(&document.value).ok_or(Refusal::whole(NO_CARD))?;
    if !lines_can_carry(&contact) {
        return Err(Refusal::whole(NO_LINE_CARRIES));
    }
    let lines = to_card::lines_of(&contact);
    let card = to_card::write(&lines).into_bytes();
    if card.len() > CARD_BYTES || lines.len() > CARD_LINES {
        return Err(Refusal::whole(OVER_ROOM));
    }
    if card.len() > room {
        return Err(Refusal::whole(OUTPUT_TOO_SHORT));
    }
    Ok(card)
}
