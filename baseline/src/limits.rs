//! The rooms of 01, "The four services".

/// A card's bytes, BEGIN and END lines and a supposed last LF counted.
pub const CARD_BYTES: usize = 32_768;
/// Unfolded lines between BEGIN and END; VERSION is one of them.
pub const CARD_LINES: usize = 512;
pub const LINE_PARAMETERS: usize = 32;
pub const LINE_PARAMETER_VALUES: usize = 64;
pub const JSON_BYTES: usize = 65_536;
/// Objects and arrays only; the outer object is depth 1.
pub const JSON_DEPTH: usize = 16;
pub const LAST_CARD_NUMBER: u64 = 999_999;
