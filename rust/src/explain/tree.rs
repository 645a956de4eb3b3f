//! JSON as a tree, to find in it what a refusal is about. It is read only after the
//! proved library has judged the text, and words its answer; it judges nothing.

/// Objects and arrays within each other, at the most.
const DEPTH: usize = 16;

/// A value of JSON. A number stays as it is spelled.
#[derive(Debug, Clone, PartialEq)]
pub enum Value {
    Null,
    Bool(bool),
    Number(String),
    Text(String),
    Array(Vec<Value>),
    Object(Vec<(String, Value)>),
}

impl Value {
    /// What kind of value it is, in words.
    pub fn kind(&self) -> &'static str {
        match self {
            Value::Null => "null",
            Value::Bool(_) => "true or false",
            Value::Number(_) => "a number",
            Value::Text(_) => "a string",
            Value::Array(_) => "an array",
            Value::Object(_) => "an object",
        }
    }

    pub fn text(&self) -> Option<&str> {
        match self {
            Value::Text(text) => Some(text),
            _ => None,
        }
    }

    pub fn object(&self) -> Option<&[(String, Value)]> {
        match self {
            Value::Object(members) => Some(members),
            _ => None,
        }
    }

    pub fn array(&self) -> Option<&[Value]> {
        match self {
            Value::Array(items) => Some(items),
            _ => None,
        }
    }

    /// The member of that name.
    pub fn get(&self, name: &str) -> Option<&Value> {
        let member = self.object()?.iter().find(|(other, _)| other == name)?;
        Some(&member.1)
    }
}

/// A text that is JSON but for equal names and half surrogate pairs.
pub struct Read {
    pub value: Value,
    /// Where the first half of a surrogate pair stands alone.
    pub half: Option<usize>,
}

/// None where the text is no JSON, or deeper than 16.
pub fn read(text: &[u8]) -> Option<Read> {
    let text = std::str::from_utf8(text).ok()?;
    let mut reader = Reader {
        bytes: text.as_bytes(),
        text,
        at: 0,
        half: None,
    };
    let value = reader.value(DEPTH)?;
    reader.space();
    let all = reader.at == text.len();
    all.then_some(Read {
        value,
        half: reader.half,
    })
}

struct Reader<'a> {
    bytes: &'a [u8],
    text: &'a str,
    at: usize,
    half: Option<usize>,
}

impl Reader<'_> {
    fn space(&mut self) {
        while matches!(self.bytes.get(self.at), Some(b' ' | b'\t' | b'\n' | b'\r')) {
            self.at += 1;
        }
    }

    /// Whether this byte comes next, after white space; then it is taken.
    fn takes(&mut self, byte: u8) -> bool {
        self.space();
        let next = self.bytes.get(self.at) == Some(&byte);
        self.at += usize::from(next);
        next
    }

    fn value(&mut self, depth: usize) -> Option<Value> {
        self.space();
        match self.bytes.get(self.at)? {
            b'{' => self.object(depth.checked_sub(1)?),
            b'[' => self.array(depth.checked_sub(1)?),
            b'"' => self.string().map(Value::Text),
            b't' => self.word("true", Value::Bool(true)),
            b'f' => self.word("false", Value::Bool(false)),
            b'n' => self.word("null", Value::Null),
            _ => self.number(),
        }
    }

    fn word(&mut self, word: &str, value: Value) -> Option<Value> {
        self.bytes[self.at..].strip_prefix(word.as_bytes())?;
        self.at += word.len();
        Some(value)
    }

    /// Any run of a number's characters: whether it is one, the library has judged.
    fn number(&mut self) -> Option<Value> {
        let rest = &self.bytes[self.at..];
        let in_number = |b: &&u8| b.is_ascii_digit() || b"+-.eE".contains(b);
        let length = rest.iter().take_while(in_number).count();
        let spelled = &self.text[self.at..self.at + length];
        self.at += length;
        (length > 0).then(|| Value::Number(spelled.to_string()))
    }

    fn object(&mut self, depth: usize) -> Option<Value> {
        self.at += 1;
        let mut members = Vec::new();
        if self.takes(b'}') {
            return Some(Value::Object(members));
        }
        loop {
            self.space();
            let name = self.string()?;
            if !self.takes(b':') {
                return None;
            }
            members.push((name, self.value(depth)?));
            if self.takes(b'}') {
                return Some(Value::Object(members));
            }
            if !self.takes(b',') {
                return None;
            }
        }
    }

    fn array(&mut self, depth: usize) -> Option<Value> {
        self.at += 1;
        let mut items = Vec::new();
        if self.takes(b']') {
            return Some(Value::Array(items));
        }
        loop {
            items.push(self.value(depth)?);
            if self.takes(b']') {
                return Some(Value::Array(items));
            }
            if !self.takes(b',') {
                return None;
            }
        }
    }

    fn string(&mut self) -> Option<String> {
        if self.bytes.get(self.at) != Some(&b'"') {
            return None;
        }
        self.at += 1;
        let mut string = String::new();
        loop {
            let rest = &self.text[self.at..];
            let plain = rest.find(['"', '\\'])?;
            string.push_str(&rest[..plain]);
            self.at += plain + 1;
            if self.bytes[self.at - 1] == b'"' {
                return Some(string);
            }
            string.push(self.escape()?);
        }
    }

    /// What follows a backslash. Half a surrogate pair is noted, and stands as U+FFFD.
    fn escape(&mut self) -> Option<char> {
        let start = self.at - 1;
        let escape = *self.bytes.get(self.at)?;
        self.at += 1;
        Some(match escape {
            b'"' | b'\\' | b'/' => char::from(escape),
            b'b' => '\u{8}',
            b'f' => '\u{c}',
            b'n' => '\n',
            b'r' => '\r',
            b't' => '\t',
            b'u' => {
                let unit = self.unit()?;
                self.character(unit, start)
            }
            _ => return None,
        })
    }

    fn unit(&mut self) -> Option<u16> {
        let digits = self.bytes.get(self.at..self.at + 4)?;
        let digits = std::str::from_utf8(digits).ok()?;
        let unit = u16::from_str_radix(digits, 16).ok()?;
        self.at += 4;
        Some(unit)
    }

    fn character(&mut self, unit: u16, start: usize) -> char {
        if let Some(c) = char::from_u32(u32::from(unit)) {
            return c;
        }
        let after = self.at;
        if unit < 0xdc00 && self.bytes[self.at..].starts_with(b"\\u") {
            self.at += 2;
            let pair = self.unit().map(|low| [unit, low]);
            let decoded = pair.and_then(|pair| String::from_utf16(&pair).ok());
            if let Some(c) = decoded.and_then(|text| text.chars().next()) {
                return c;
            }
            self.at = after;
        }
        self.half.get_or_insert(start);
        char::REPLACEMENT_CHARACTER
    }
}
