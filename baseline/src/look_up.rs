//! The look-up of a top-level member.

use crate::json;
use crate::limits::{JSON_BYTES, JSON_DEPTH};

/// The member's value as that part of the caller's JSON; empty if the JSON is
/// over its room, is no JSON or no object, or has no member of that name.
pub fn look_up<'a>(input: &'a [u8], name: &[u8]) -> &'a [u8] {
    find(input, name).unwrap_or_default()
}

fn find<'a>(input: &'a [u8], name: &[u8]) -> Option<&'a [u8]> {
    if input.len() > JSON_BYTES {
        return None;
    }
    let document = json::read(input, JSON_DEPTH).ok()?;
    let members = document.value.as_object()?;
    let index = members
        .iter()
        .position(|(member, _)| member.as_bytes() == name)?;
    input.get(document.spans[index].clone())
}
