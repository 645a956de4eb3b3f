//! The conversions and the stream as C sees them: all numbers that a call gives,
//! those too that the Rust functions leave out, and a state of any numbers.

extern "C" {
    fn thymebarrel_card_to_json(
        stem: *const u8,
        stem_length: usize,
        number: usize,
        card: *const u8,
        card_length: usize,
        out: *mut u8,
        out_length: usize,
        place: *mut usize,
        written: *mut usize,
    ) -> u8;

    fn thymebarrel_json_to_card(json: *const u8, json_length: usize, out: *mut u8, out_length: usize, place: *mut usize, written: *mut usize) -> u8;

    fn thymebarrel_stream_step(
        state: *mut usize,
        state_length: usize,
        stem: *const u8,
        stem_length: usize,
        piece: *const u8,
        piece_length: usize,
        buffer: *mut u8,
        buffer_length: usize,
        out: *mut u8,
        out_length: usize,
        consumed: *mut usize,
        place: *mut usize,
        written: *mut usize,
    ) -> u8;

    fn thymebarrel_stream_end(
        state: *mut usize,
        state_length: usize,
        stem: *const u8,
        stem_length: usize,
        buffer: *mut u8,
        buffer_length: usize,
        out: *mut u8,
        out_length: usize,
        consumed: *mut usize,
        place: *mut usize,
        written: *mut usize,
    ) -> u8;
}

/// Number, place and length.
pub type Told = (u32, usize, usize);

/// What place and length hold before a call, to see that they are written.
const UNTOLD: usize = 987_654_321;

pub fn card_to_json(stem: &[u8], number: usize, card: &[u8], out: &mut [u8]) -> Told {
    let (mut place, mut written) = (UNTOLD, UNTOLD);
    // each pointer comes from a slice with its length, or from a number of our own
    let number = unsafe {
        thymebarrel_card_to_json(
            stem.as_ptr(),
            stem.len(),
            number,
            card.as_ptr(),
            card.len(),
            out.as_mut_ptr(),
            out.len(),
            &mut place,
            &mut written,
        )
    };
    (u32::from(number), place, written)
}

pub fn json_to_card(json: &[u8], out: &mut [u8]) -> Told {
    let (mut place, mut written) = (UNTOLD, UNTOLD);
    // as above
    let number = unsafe { thymebarrel_json_to_card(json.as_ptr(), json.len(), out.as_mut_ptr(), out.len(), &mut place, &mut written) };
    (u32::from(number), place, written)
}

/// A call of a stream: with a piece, or, with none, an end call. What is told, and
/// the bytes consumed.
pub fn stream(state: &mut [usize], stem: &[u8], piece: Option<&[u8]>, buffer: &mut [u8], out: &mut [u8]) -> (Told, usize) {
    let (mut consumed, mut place, mut written) = (UNTOLD, UNTOLD, UNTOLD);
    let (row, row_length) = (state.as_mut_ptr(), state.len());
    let (stem, stem_length) = (stem.as_ptr(), stem.len());
    let (card, card_length) = (buffer.as_mut_ptr(), buffer.len());
    let (json, json_length) = (out.as_mut_ptr(), out.len());
    let (used, at, length) = (&mut consumed, &mut place, &mut written);
    // as above
    let number = unsafe {
        match piece {
            Some(bytes) => {
                let (piece, piece_length) = (bytes.as_ptr(), bytes.len());
                thymebarrel_stream_step(row, row_length, stem, stem_length, piece, piece_length, card, card_length, json, json_length, used, at, length)
            }
            None => thymebarrel_stream_end(row, row_length, stem, stem_length, card, card_length, json, json_length, used, at, length),
        }
    };
    ((u32::from(number), place, written), consumed)
}
