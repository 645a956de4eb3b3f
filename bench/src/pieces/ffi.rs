//! The C functions of crates/pieces, each behind a safe function: every pointer
//! comes from a slice that lives through the call, with that slice's length beside it,
//! and what is written is borrowed mutably.

use super::parts::Parts;

extern "C" {
    fn pieces_unfold(out: *mut u8, out_length: usize, starts: *mut usize, starts_length: usize, card: *const u8, card_length: usize) -> usize;
    fn pieces_garbled(bytes: *const u8, bytes_length: usize, starts: *const usize, starts_length: usize, count: usize) -> usize;
    fn pieces_parse(
        table: *mut usize,
        table_length: usize,
        bytes: *const u8,
        bytes_length: usize,
        starts: *const usize,
        starts_length: usize,
        count: usize,
        marks: u8,
    ) -> usize;
    fn pieces_put(out: *mut u8, out_length: usize, bytes: *const u8, bytes_length: usize, starts: *const usize, starts_length: usize, count: usize, writer: u8) -> usize;
    fn pieces_read(json: *const u8, json_length: usize) -> usize;
}

/// The writers of `pieces_put`, by their numbers.
#[derive(Clone, Copy)]
#[repr(u8)]
pub enum Writer {
    ReadText,
    Pen,
    JsonString,
    Decode,
    Requote,
    Compact,
}

/// The unfolded lines between BEGIN and END: how many.
pub fn unfold(out: &mut [u8], starts: &mut [usize], card: &[u8]) -> usize {
    unsafe { pieces_unfold(out.as_mut_ptr(), out.len(), starts.as_mut_ptr(), starts.len(), card.as_ptr(), card.len()) }
}

/// The first line that is not UTF-8 or has a control; 0 where there is none.
pub fn garbled(lines: &Parts) -> usize {
    let (bytes, starts) = (&lines.bytes, &lines.starts);
    unsafe { pieces_garbled(bytes.as_ptr(), bytes.len(), starts.as_ptr(), starts.len(), lines.count()) }
}

/// The places of a line's table in crates/line_table.
pub struct Scratch {
    table: [usize; 264],
}

impl Scratch {
    pub fn new() -> Scratch {
        Scratch { table: [0; 264] }
    }
}

/// How many lines were taken apart, and with marks: whose parameters are all listed.
pub fn parse(scratch: &mut Scratch, lines: &Parts, marks: bool) -> usize {
    let table = &mut scratch.table;
    let (bytes, starts) = (&lines.bytes, &lines.starts);
    unsafe {
        pieces_parse(
            table.as_mut_ptr(),
            table.len(),
            bytes.as_ptr(),
            bytes.len(),
            starts.as_ptr(),
            starts.len(),
            lines.count(),
            u8::from(marks),
        )
    }
}

/// Each part by that writer, one after the other: how many bytes were written.
pub fn put(out: &mut [u8], parts: &Parts, writer: Writer) -> usize {
    let (bytes, starts) = (&parts.bytes, &parts.starts);
    unsafe { pieces_put(out.as_mut_ptr(), out.len(), bytes.as_ptr(), bytes.len(), starts.as_ptr(), starts.len(), parts.count(), writer as u8) }
}

/// The length of a JSON text; 0 where it is refused.
pub fn read(json: &[u8]) -> usize {
    unsafe { pieces_read(json.as_ptr(), json.len()) }
}
