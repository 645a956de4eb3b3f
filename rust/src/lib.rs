#![doc = include_str!("../README.md")]
#![deny(unsafe_code, missing_docs)]

mod cards;
mod explain;
#[allow(unsafe_code)]
mod ffi;
mod lines;
mod reason;
mod refusal;
mod stream;

pub use cards::{Answer, Cards};
pub use explain::{printable, Explanation};
pub use reason::{PlaceOf, Reason};
pub use refusal::Refusal;
pub use stream::{Lent, Said, Stream};

/// Bytes of JSON at the most.
pub const JSON_BYTES: usize = 65_536;
/// Bytes of a card at the most.
pub const CARD_BYTES: usize = 32_768;
/// Unfolded lines between BEGIN and END at the most.
pub const CARD_LINES: usize = 512;
/// A card's number at the most.
pub const LAST_NUMBER: usize = 999_999;
/// Bytes of stack that a thread needs at least to call any function of this crate. It is
/// not proved: the most that was measured is 438,000 (docs/PERFORMANCE.md), and a short
/// input may take nearly all of that.
pub const STACK_BYTES: usize = 524_288;
/// Bytes of a stem at the most.
pub const STEM_BYTES: usize = 200;

/// Converts one card into `out`, and answers the length of the JSON there. `stem`
/// and `number` make the UID of a card without one. [`JSON_BYTES`] of output are
/// always enough.
///
/// # Errors
///
/// A [`Refusal`] 1, 3 to 10, 14 or 15; every byte of `out` is then as it was.
pub fn card_to_json_into(
    stem: &[u8],
    number: usize,
    card: &[u8],
    out: &mut [u8],
) -> Result<usize, Refusal> {
    ffi::card_to_json(stem, number, card, out)
}

/// Converts one card. `stem` and `number` make the UID of a card without one: no two
/// cards of a register may get the same two.
///
/// # Errors
///
/// A [`Refusal`] 1, 3 to 10, or 15.
///
/// ```
/// let card = "BEGIN:VCARD\nVERSION:4.0\nFN:Ada Moss\nEND:VCARD\n";
/// let json = thymebarrel::card_to_json("reg", 1, card)?;
/// assert_eq!(json, r#"{"@type":"Card","version":"1.0","uid":"reg-1","name":{"full":"Ada Moss"}}"#);
/// # Ok::<(), thymebarrel::Refusal>(())
/// ```
pub fn card_to_json(
    stem: impl AsRef<[u8]>,
    number: usize,
    card: impl AsRef<[u8]>,
) -> Result<String, Refusal> {
    let mut out = vec![0; JSON_BYTES];
    let length = card_to_json_into(stem.as_ref(), number, card.as_ref(), &mut out)?;
    Ok(utf8(&out[..length]))
}

/// Converts JSON into `out`, and answers the length of the card there. [`CARD_BYTES`]
/// of output are always enough.
///
/// # Errors
///
/// A [`Refusal`] 3 or 11 to 14; every byte of `out` is then as it was.
pub fn json_to_card_into(json: &[u8], out: &mut [u8]) -> Result<usize, Refusal> {
    ffi::json_to_card(json, out)
}

/// Converts JSON to a card, with CR LF at the end of each line.
///
/// # Errors
///
/// A [`Refusal`] 3 or 11 to 13.
///
/// ```
/// let card = thymebarrel::json_to_card(r#"{"@type":"Card","version":"1.0","uid":"u"}"#)?;
/// assert_eq!(card, "BEGIN:VCARD\r\nVERSION:4.0\r\nUID:u\r\nFN;DERIVED=TRUE:\r\nEND:VCARD\r\n");
/// # Ok::<(), thymebarrel::Refusal>(())
/// ```
pub fn json_to_card(json: impl AsRef<[u8]>) -> Result<String, Refusal> {
    let mut out = vec![0; CARD_BYTES];
    let length = json_to_card_into(json.as_ref(), &mut out)?;
    Ok(utf8(&out[..length]))
}

/// The value of the top-level member of that name, as that very part of `json`. None
/// where the text is over [`JSON_BYTES`], is no JSON or no object, or has no such
/// member.
///
/// ```
/// use thymebarrel::member;
/// let json = r#"{"uid":"u","name":{"full":"Ada"}}"#;
/// assert_eq!(member(json, "uid"), Some("\"u\""));
/// assert_eq!(member(json, "kind"), None);
/// ```
pub fn member<J: AsRef<[u8]> + ?Sized>(json: &J, name: impl AsRef<[u8]>) -> Option<&str> {
    let json = json.as_ref();
    let (start, length) = ffi::member(json, name.as_ref());
    let value = std::str::from_utf8(&json[start..start + length]).ok()?;
    (!value.is_empty()).then_some(value)
}

/// What the library wrote, in memory of its own size.
fn utf8(written: &[u8]) -> String {
    String::from_utf8(written.to_vec()).expect("the library is proved to write UTF-8")
}
