//! The table of 01, "Converted lines": the seven maps, the TYPE values and the
//! parts of N.

/// The seven maps, in the table's order.
#[derive(Debug, Clone, Copy, PartialEq, Eq)]
pub enum Map {
    Nicknames,
    Emails,
    Phones,
    Links,
    Notes,
    Titles,
    Organizations,
}

pub const MAPS: [Map; 7] = [
    Map::Nicknames,
    Map::Emails,
    Map::Phones,
    Map::Links,
    Map::Notes,
    Map::Titles,
    Map::Organizations,
];

impl Map {
    /// The map that a property converts to; TITLE and ROLE share one.
    pub fn of_property(name: &str) -> Option<Map> {
        Some(match name {
            "NICKNAME" => Map::Nicknames,
            "EMAIL" => Map::Emails,
            "TEL" => Map::Phones,
            "URL" => Map::Links,
            "NOTE" => Map::Notes,
            "TITLE" | "ROLE" => Map::Titles,
            "ORG" => Map::Organizations,
            _ => return None,
        })
    }

    /// The top-level member.
    pub fn member(self) -> &'static str {
        match self {
            Map::Nicknames => "nicknames",
            Map::Emails => "emails",
            Map::Phones => "phones",
            Map::Links => "links",
            Map::Notes => "notes",
            Map::Titles => "titles",
            Map::Organizations => "organizations",
        }
    }

    pub fn of_member(name: &str) -> Option<Map> {
        MAPS.into_iter().find(|map| map.member() == name)
    }

    /// The prefix of made keys.
    pub fn prefix(self) -> &'static str {
        match self {
            Map::Nicknames => "NICK",
            Map::Emails => "EMAIL",
            Map::Phones => "PHONE",
            Map::Links => "LINK",
            Map::Notes => "NOTE",
            Map::Titles => "TITLE",
            Map::Organizations => "ORG",
        }
    }

    /// The entry's member that holds the property's value.
    pub fn text_member(self) -> &'static str {
        match self {
            Map::Nicknames | Map::Titles | Map::Organizations => "name",
            Map::Emails => "address",
            Map::Phones => "number",
            Map::Links => "uri",
            Map::Notes => "note",
        }
    }

    pub fn takes_pref_and_type(self) -> bool {
        matches!(
            self,
            Map::Nicknames | Map::Emails | Map::Phones | Map::Links
        )
    }

    pub fn takes_value_uri(self) -> bool {
        matches!(self, Map::Phones | Map::Links)
    }

    pub fn takes_features(self) -> bool {
        self == Map::Phones
    }
}

/// Top-level members that no JSPROP line may name.
pub fn is_own_member(name: &str) -> bool {
    let fixed = ["@type", "version", "uid", "kind", "name", "vCardProps"];
    fixed.contains(&name) || Map::of_member(name).is_some()
}

/// A TYPE value and the context or feature it stands for.
pub struct TypeName {
    pub vcard: &'static str,
    pub json: &'static str,
}

const fn type_name(vcard: &'static str, json: &'static str) -> TypeName {
    TypeName { vcard, json }
}

/// Contexts first, then features, each alphabetical by JSON name: the order in
/// which both sides write them.
pub const TYPES: [TypeName; 9] = [
    type_name("home", "private"),
    type_name("work", "work"),
    type_name("fax", "fax"),
    type_name("cell", "mobile"),
    type_name("pager", "pager"),
    type_name("text", "text"),
    type_name("textphone", "textphone"),
    type_name("video", "video"),
    type_name("voice", "voice"),
];

/// How many of TYPES are contexts.
pub const CONTEXTS: usize = 2;

/// The component kinds in the order of N's parts.
pub const KINDS: [&str; 7] = [
    "surname",
    "given",
    "given2",
    "title",
    "credential",
    "surname2",
    "generation",
];

pub const SURNAME: usize = 0;
pub const CREDENTIAL: usize = 4;
pub const SURNAME2: usize = 5;
pub const GENERATION: usize = 6;
