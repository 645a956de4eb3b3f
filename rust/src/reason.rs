//! The refusals of the rules (docs/RULES.md) by number, in words.

/// Why an input is refused. Numbers 2 and 16 are of a stream of cards, 11 to 13 of
/// JSON that is to become a card.
#[derive(Debug, Clone, Copy, PartialEq, Eq, Hash)]
#[non_exhaustive]
pub enum Reason {
    /// BEGIN first, END last, neither elsewhere; in a stream a line outside of a card.
    NotOneCard = 1,
    /// In a stream, a card without its END.
    LeftOpen = 2,
    /// The input or what it becomes is over its room.
    OverRoom = 3,
    /// Not UTF-8, or a control character.
    NotText = 4,
    /// A line that is not `NAME;PARAMETER=value:value`.
    OffGrammar = 5,
    /// The first line is not `VERSION:4.0`.
    NotVersion4 = 6,
    /// A parameter or a group where none may stand.
    BadParameter = 7,
    /// A second VERSION, UID or KIND.
    Repeated = 8,
    /// UID or KIND without a good value.
    BadUidOrKind = 9,
    /// No FN line.
    NoFn = 10,
    /// Not JSON of depth 16, or equal names in one object.
    NotJson = 11,
    /// JSON that is no card.
    NotACard = 12,
    /// A string that no line can carry.
    NotCarried = 13,
    /// The output that is lent is too short.
    OutputTooShort = 14,
    /// The stem or the number is out of its range.
    BadStemOrNumber = 15,
    /// A stream's buffers are too short, or its state is none.
    Unfit = 16,
}

/// What a refusal's place counts.
#[derive(Debug, Clone, Copy, PartialEq, Eq, Hash)]
#[non_exhaustive]
pub enum PlaceOf {
    /// It is 0: the refusal is of the whole.
    Whole,
    /// The first offending unfolded line; VERSION, after BEGIN, is line 1.
    Line,
    /// Bytes before the first at which no JSON can still follow; 0 also for equal
    /// names or half a surrogate pair.
    Byte,
}

impl Reason {
    /// Every reason, by number.
    pub const ALL: &'static [Reason] = &[
        Reason::NotOneCard,
        Reason::LeftOpen,
        Reason::OverRoom,
        Reason::NotText,
        Reason::OffGrammar,
        Reason::NotVersion4,
        Reason::BadParameter,
        Reason::Repeated,
        Reason::BadUidOrKind,
        Reason::NoFn,
        Reason::NotJson,
        Reason::NotACard,
        Reason::NotCarried,
        Reason::OutputTooShort,
        Reason::BadStemOrNumber,
        Reason::Unfit,
    ];

    /// The reason of that number, if there is one.
    pub fn of(number: u8) -> Option<Reason> {
        Reason::ALL.iter().copied().find(|r| r.number() == number)
    }

    /// The number of the rules' table.
    pub fn number(self) -> u8 {
        self as u8
    }

    /// What the place of such a refusal counts.
    pub fn place_of(self) -> PlaceOf {
        match self.number() {
            4 | 5 | 7 | 8 | 9 => PlaceOf::Line,
            11 => PlaceOf::Byte,
            _ => PlaceOf::Whole,
        }
    }

    /// What is wrong, in a sentence.
    pub fn meaning(self) -> &'static str {
        self.words().0
    }

    /// What to do about it, or what to tell the sender.
    pub fn advice(self) -> &'static str {
        self.words().1
    }

    fn words(self) -> (&'static str, &'static str) {
        match self {
            Reason::NotOneCard => (
                "This is not one card: the first line must be BEGIN:VCARD, the last END:VCARD, and neither may stand anywhere else.",
                "Send one card at a time, whole, with nothing before or after it, not even an empty line.",
            ),
            Reason::LeftOpen => (
                "A card was not finished: the next BEGIN:VCARD or the end of the stream came before its END:VCARD.",
                "Send the card again, with END:VCARD as its last line.",
            ),
            Reason::OverRoom => (
                "Too large: a card may have 32,768 bytes and 512 lines (folded ones counted once), JSON 65,536 bytes, a stream 999,999 cards.",
                "Leave out what is large, most often a picture or a key, or send a link to it.",
            ),
            Reason::NotText => (
                "A line is not UTF-8, or has a control character other than tab.",
                "Save the card as UTF-8, and take the control character out of this line.",
            ),
            Reason::OffGrammar => (
                "A line is not NAME:value or NAME;PARAMETER=value:value; or it has over 32 parameters or 64 parameter values; or its name is BEGIN or END.",
                "Mend this line: names are letters, digits and hyphens, a colon goes before the value, and a long line goes on with a space in front.",
            ),
            Reason::NotVersion4 => (
                "The line after BEGIN:VCARD is not VERSION:4.0.",
                "Export the card as vCard 4.0. Versions 2.1 and 3.0 are not read.",
            ),
            Reason::BadParameter => (
                "A parameter may not stand here: UID and KIND take no group and no parameter (but VALUE=uri on UID), no line takes GROUP, and VALUE is one name.",
                "Take this parameter, or the group before the name, out of this line.",
            ),
            Reason::Repeated => (
                "A second VERSION, UID or KIND.",
                "A card has one of each: take this line out, or send two cards.",
            ),
            Reason::BadUidOrKind => (
                "UID is empty, or KIND is empty or has other than letters, digits and hyphens.",
                "Give this line a value, or take it out: a card without UID gets one made.",
            ),
            Reason::NoFn => (
                "The card has no FN line, the full name.",
                "Add a line FN: with the name as it is to be shown.",
            ),
            Reason::NotJson => (
                "This is not JSON (RFC 8259) of depth 16 at most; or an object has two members of one name, or a string half a surrogate pair.",
                "Mend the JSON at this byte. Place 0 may also mean equal names or half a surrogate pair anywhere.",
            ),
            Reason::NotACard => (
                "This JSON is no card of the rules: a member is missing, is not known inside its object, or has a value that no card gives.",
                "Compare it with docs/RULES.md, To vCard. @type, version and uid must be there.",
            ),
            Reason::NotCarried => (
                "A string in the JSON cannot stand in a vCard line.",
                "Take out control characters, double quotes in a parameter, or a surname that is also a secondary surname (a credential that is also a generation).",
            ),
            Reason::OutputTooShort => (
                "The result is longer than the output that was lent.",
                "Lend more: 65,536 bytes are enough for JSON, 32,768 for a card.",
            ),
            Reason::BadStemOrNumber => (
                "The stem is not 1 to 200 characters of A-Z a-z 0-9 : - _, or the number is not 1 to 999,999.",
                "This is a fault of the caller, not of the card: give another stem or number.",
            ),
            Reason::Unfit => (
                "A stream was called with a card buffer under 32,768 bytes, an output under 65,536, or a state out of its ranges (docs/STREAM.md).",
                "This is a fault of the caller: lend the full sizes, and hand in the state that the last call handed back.",
            ),
        }
    }
}
