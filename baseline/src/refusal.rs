//! The refusal numbers of 01 and the two shapes in which answers travel.

pub const NOT_ONE_CARD: u32 = 1;
pub const CARD_LEFT_OPEN: u32 = 2;
pub const OVER_ROOM: u32 = 3;
pub const NOT_TEXT: u32 = 4;
pub const OFF_GRAMMAR: u32 = 5;
pub const NOT_VERSION_4: u32 = 6;
pub const BAD_PARAMETER: u32 = 7;
pub const SECOND_OF_ITS_NAME: u32 = 8;
pub const BAD_UID_OR_KIND: u32 = 9;
pub const NO_FN: u32 = 10;
pub const NOT_JSON: u32 = 11;
pub const NO_CARD: u32 = 12;
pub const NO_LINE_CARRIES: u32 = 13;
pub const OUTPUT_TOO_SHORT: u32 = 14;
pub const BAD_STEM_OR_NUMBER: u32 = 15;

/// Why an input is refused: the number of 01's table, and the place.
#[derive(Debug, Clone, Copy, PartialEq, Eq)]
pub struct Refusal {
    pub number: u32,
    pub place: usize,
}

impl Refusal {
    /// A refusal whose place 01 fixes at 0.
    pub fn whole(number: u32) -> Refusal {
        Refusal { number, place: 0 }
    }

    /// A refusal at an unfolded line (VERSION is 1), given its index from 0.
    pub fn line(number: u32, index: usize) -> Refusal {
        Refusal {
            number,
            place: index + 1,
        }
    }
}

/// What a service answers: number 0 and the bytes, or a refusal and no bytes.
#[derive(Debug, Clone, PartialEq, Eq)]
pub struct Answer {
    pub number: u32,
    pub place: usize,
    pub bytes: Vec<u8>,
}

impl From<Result<Vec<u8>, Refusal>> for Answer {
    fn from(result: Result<Vec<u8>, Refusal>) -> Answer {
        match result {
            Ok(bytes) => Answer {
                number: 0,
                place: 0,
                bytes,
            },
            Err(refusal) => Answer {
                number: refusal.number,
                place: refusal.place,
                bytes: Vec::new(),
            },
        }
    }
}
