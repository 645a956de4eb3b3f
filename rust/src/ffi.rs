//! The C functions of the proved library, each behind a safe function. The only
//! `unsafe` of this crate stands here. What include/thymebarrel.h asks of a
//! caller holds at each call for one reason: every pointer comes from a slice or
//! a reference that lives through the call, the length beside it is that slice's,
//! and what is written is borrowed mutably, so that nothing else overlaps it.
//! `tests/header.rs` holds these declarations to the header.

use crate::stream::Words;
use crate::{Lent, Refusal, Said, Stream};

extern "C" {
    fn thymebarrel_card_to_json(
        stem: *const u8,
        stem_length: usize,
        number: usize,
        card: *const u8,
        card_length: usize,
        out: *mut u8,
        out_length: usize,
        place: *mut usize,
        written: *mut usize,
    ) -> u8;

    fn thymebarrel_json_to_card(
        json: *const u8,
        json_length: usize,
        out: *mut u8,
        out_length: usize,
        place: *mut usize,
        written: *mut usize,
    ) -> u8;

    fn thymebarrel_stream_step(
        state: *mut usize,
        state_length: usize,
        stem: *const u8,
        stem_length: usize,
        piece: *const u8,
        piece_length: usize,
        buffer: *mut u8,
        buffer_length: usize,
        out: *mut u8,
        out_length: usize,
        consumed: *mut usize,
        place: *mut usize,
        written: *mut usize,
    ) -> u8;

    fn thymebarrel_stream_end(
        state: *mut usize,
        state_length: usize,
        stem: *const u8,
        stem_length: usize,
        buffer: *mut u8,
        buffer_length: usize,
        out: *mut u8,
        out_length: usize,
        consumed: *mut usize,
        place: *mut usize,
        written: *mut usize,
    ) -> u8;

    fn thymebarrel_member(
        json: *const u8,
        json_length: usize,
        name: *const u8,
        name_length: usize,
        length: *mut usize,
    ) -> usize;
}

/// Where the member's value begins, and its length; length 0 where there is none.
pub fn member(json: &[u8], name: &[u8]) -> (usize, usize) {
    let mut length = 0;
    // SAFETY: two slices that are only read, and a number of our own to write to.
    let start = unsafe {
        thymebarrel_member(
            json.as_ptr(),
            json.len(),
            name.as_ptr(),
            name.len(),
            &mut length,
        )
    };
    (start, length)
}

/// The length of the JSON at the front of `out`, or the refusal.
pub fn card_to_json(
    stem: &[u8],
    number: usize,
    card: &[u8],
    out: &mut [u8],
) -> Result<usize, Refusal> {
    let (mut place, mut written) = (0, 0);
    // SAFETY: two slices that are only read; a slice and two numbers, each borrowed
    // mutably, to write to.
    let answer = unsafe {
        thymebarrel_card_to_json(
            stem.as_ptr(),
            stem.len(),
            number,
            card.as_ptr(),
            card.len(),
            out.as_mut_ptr(),
            out.len(),
            &mut place,
            &mut written,
        )
    };
    result(answer, place, written)
}

/// The length of the card at the front of `out`, or the refusal.
pub fn json_to_card(json: &[u8], out: &mut [u8]) -> Result<usize, Refusal> {
    let (mut place, mut written) = (0, 0);
    // SAFETY: as in `card_to_json`.
    let answer = unsafe {
        thymebarrel_json_to_card(
            json.as_ptr(),
            json.len(),
            out.as_mut_ptr(),
            out.len(),
            &mut place,
            &mut written,
        )
    };
    result(answer, place, written)
}

fn result(answer: u8, place: usize, written: usize) -> Result<usize, Refusal> {
    match answer {
        0 => Ok(written),
        number => Err(Refusal { number, place }),
    }
}

/// What is said, and the bytes consumed.
pub fn stream_step(state: &mut Words, stem: &[u8], piece: &[u8], lent: &mut Lent) -> (Said, usize) {
    let (mut consumed, mut place, mut written) = (0, 0, 0);
    // SAFETY: as in `card_to_json`; the state, the card buffer and the output are
    // three slices borrowed mutably.
    let answer = unsafe {
        thymebarrel_stream_step(
            state.as_mut_ptr(),
            state.len(),
            stem.as_ptr(),
            stem.len(),
            piece.as_ptr(),
            piece.len(),
            lent.buffer.as_mut_ptr(),
            lent.buffer.len(),
            lent.out.as_mut_ptr(),
            lent.out.len(),
            &mut consumed,
            &mut place,
            &mut written,
        )
    };
    (said(answer, place, written), consumed)
}

/// What an end call says.
pub fn stream_end(state: &mut Words, stem: &[u8], lent: &mut Lent) -> (Said, usize) {
    let (mut consumed, mut place, mut written) = (0, 0, 0);
    // SAFETY: as in `stream_step`.
    let answer = unsafe {
        thymebarrel_stream_end(
            state.as_mut_ptr(),
            state.len(),
            stem.as_ptr(),
            stem.len(),
            lent.buffer.as_mut_ptr(),
            lent.buffer.len(),
            lent.out.as_mut_ptr(),
            lent.out.len(),
            &mut consumed,
            &mut place,
            &mut written,
        )
    };
    (said(answer, place, written), consumed)
}

fn said(answer: u8, place: usize, written: usize) -> Said {
    match answer {
        Stream::MORE => Said::More,
        0 => Said::Json(written),
        number => Said::Refused(Refusal { number, place }),
    }
}
