//! A plain vCard 4.0 <-> JSContact converter by document 01, read
//! independently of the formal definitions. Layers, from the ground up: JSON
//! (`json`) and lines (`physical`, `line`, `text`, `pointer`); the table of 01;
//! the contact between the two sides; the services.

mod card_to_json;
mod carry;
mod chars;
mod check;
mod contact;
mod from_json;
mod from_kept;
pub mod generate;
mod json;
mod json_to_card;
mod judge;
mod kept;
pub mod limits;
mod line;
mod look_up;
mod normal_card;
mod normal_json;
mod physical;
mod pointer;
mod refusal;
mod stream;
mod table;
mod text;
mod to_card;
mod to_json;

pub use card_to_json::card_to_json;
pub use json_to_card::json_to_card;
pub use look_up::look_up;
pub use normal_card::normal_card;
pub use normal_json::normal_json;
pub use refusal::Answer;
pub use stream::{Reader, Told, What};

/// The functions behind the services, for `tools/bench --pieces`, which measures
/// them one by one.
pub mod pieces {
    pub use crate::check::read_text as read_line;
    pub use crate::json::{read as read_json, string_at, write as write_json, write_string, Value};
    pub use crate::judge::Given;
    pub use crate::line::{fold, Line};
    pub use crate::physical::{between_begin_and_end, unfold};
    pub use crate::table::Map;
    pub use crate::text::{read as read_text};
}
