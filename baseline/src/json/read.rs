//! Reads RFC 8259 JSON. A fault of grammar, UTF-8 or depth is placed at the
//! first byte after which no JSON can follow, which is where this reader stops
//! since it never looks ahead; equal names and lone surrogates have place 0.

use super::Value;
use std::collections::HashSet;
use std::ops::Range;

/// A JSON text read: its tree, and where the values of the outer object's
/// members stand in the text (for the look-up).
pub struct Document {
    pub value: Value,
    pub spans: Vec<Range<usize>>,
}

/// Reads a whole text of at most `depth` nested objects and arrays. The error
/// is 11's place.
pub fn read(input: &[u8], depth: usize) -> Result<Document, usize> {
    let mut reader = Reader::new(input, 0, depth);
    reader.skip_space();
    let value = reader.value(depth)?;
    reader.skip_space();
    if reader.at < input.len() {
        return Err(reader.at);
    }
    // Only now: a fault with an offset, even a later one, goes first.
    if reader.blemished {
        return Err(0);
    }
    Ok(Document {
        value,
        spans: reader.spans,
    })
}

/// The string whose first quote stands at a place.
pub fn string_at(input: &[u8], at: usize) -> Result<String, usize> {
    Reader::new(input, at, 0).string()
}

struct Reader<'a> {
    input: &'a [u8],
    at: usize,
    depth: usize,
    spans: Vec<Range<usize>>,
    /// Equal names or a lone surrogate were met.
    blemished: bool,
}

impl Reader<'_> {
    fn new(input: &[u8], at: usize, depth: usize) -> Reader<'_> {
        Reader {
            input,
            at,
            depth,
            spans: Vec::new(),
            blemished: false,
        }
    }

    fn peek(&self) -> Option<u8> {
        self.input.get(self.at).copied()
    }

    fn skip_space(&mut self) {
        while matches!(self.peek(), Some(b' ' | b'\t' | b'\n' | b'\r')) {
            self.at += 1;
        }
    }

    fn expect(&mut self, allowed: impl Fn(u8) -> bool) -> Result<u8, usize> {
        match self.peek() {
            Some(byte) if allowed(byte) => {
                self.at += 1;
                Ok(byte)
            }
            _ => Err(self.at),
        }
    }

    fn value(&mut self, depth_left: usize) -> Result<Value, usize> {
        match self.peek() {
            Some(b'{') if depth_left > 0 => self.object(depth_left - 1),
            Some(b'[') if depth_left > 0 => self.array(depth_left - 1),
            Some(b'"') => Ok(Value::String(self.string()?)),
            Some(b'n') => self.word("null", Value::Null),
            Some(b't') => self.word("true", Value::Bool(true)),
            Some(b'f') => self.word("false", Value::Bool(false)),
            Some(b'-' | b'0'..=b'9') => self.number(),
            _ => Err(self.at),
        }
    }

    fn word(&mut self, word: &str, value: Value) -> Result<Value, usize> {
        for letter in word.bytes() {
            self.expect(|byte| byte == letter)?;
        }
        Ok(value)
    }

    fn array(&mut self, depth_left: usize) -> Result<Value, usize> {
        self.at += 1;
        self.skip_space();
        let mut items = Vec::new();
        if self.peek() == Some(b']') {
            self.at += 1;
            return Ok(Value::Array(items));
        }
        loop {
            self.skip_space();
            items.push(self.value(depth_left)?);
            self.skip_space();
            if self.expect(|byte| byte == b',' || byte == b']')? == b']' {
                return Ok(Value::Array(items));
            }
        }
    }

    fn object(&mut self, depth_left: usize) -> Result<Value, usize> {
        self.at += 1;
        self.skip_space();
        let mut members = Vec::new();
        if self.peek() == Some(b'}') {
            self.at += 1;
            return Ok(Value::Object(members));
        }
        loop {
            self.skip_space();
            members.push(self.member(depth_left)?);
            self.skip_space();
            if self.expect(|byte| byte == b',' || byte == b'}')? == b'}' {
                self.blemished |= has_equal_names(&members);
                return Ok(Value::Object(members));
            }
        }
    }

    fn member(&mut self, depth_left: usize) -> Result<(String, Value), usize> {
        if self.peek() != Some(b'"') {
            return Err(self.at);
        }
        let name = self.string()?;
        self.skip_space();
        self.expect(|byte| byte == b':')?;
        self.skip_space();
        let start = self.at;
        let value = self.value(depth_left)?;
        if depth_left + 1 == self.depth {
            self.spans.push(start..self.at);
        }
        Ok((name, value))
    }

    fn number(&mut self) -> Result<Value, usize> {
        let start = self.at;
        if self.peek() == Some(b'-') {
            self.at += 1;
        }
        if self.expect(|byte| byte.is_ascii_digit())? != b'0' {
            self.skip_digits();
        }
        if self.peek() == Some(b'.') {
            self.at += 1;
            self.digits()?;
        }
        if matches!(self.peek(), Some(b'e' | b'E')) {
            self.at += 1;
            if matches!(self.peek(), Some(b'+' | b'-')) {
                self.at += 1;
            }
            self.digits()?;
        }
        let spelling = String::from_utf8_lossy(&self.input[start..self.at]);
        Ok(Value::Number(spelling.into_owned()))
    }

    fn digits(&mut self) -> Result<(), usize> {
        self.expect(|byte| byte.is_ascii_digit())?;
        self.skip_digits();
        Ok(())
    }

    fn skip_digits(&mut self) {
        while matches!(self.peek(), Some(b'0'..=b'9')) {
            self.at += 1;
        }
    }

    fn string(&mut self) -> Result<String, usize> {
        self.at += 1;
        let mut text = String::new();
        loop {
            text.push_str(self.run()?);
            match self.peek() {
                Some(b'"') => {
                    self.at += 1;
                    return Ok(text);
                }
                Some(b'\\') => text.push(self.escape()?),
                _ => return Err(self.at),
            }
        }
    }

    /// The raw characters up to a quote, a backslash, a control or the end, copied
    /// as one run. Only where they are no UTF-8 is the place sought byte by byte.
    fn run(&mut self) -> Result<&str, usize> {
        let rest = &self.input[self.at..];
        let stop = |byte: &u8| matches!(byte, b'"' | b'\\' | 0..=0x1f);
        let run = &rest[..rest.iter().position(stop).unwrap_or(rest.len())];
        match std::str::from_utf8(run) {
            Ok(text) => {
                self.at += run.len();
                Ok(text)
            }
            Err(fault) => {
                self.at += fault.valid_up_to();
                self.character()
            }
        }
    }

    /// One raw character, its UTF-8 judged byte by byte (RFC 3629's table), for 11's
    /// place: the byte that breaks it.
    fn character(&mut self) -> Result<&str, usize> {
        let start = self.at;
        let (second, more) = match self.input[start] {
            0x00..=0x7f => (0..=0, 0),
            0xc2..=0xdf => (0x80..=0xbf, 1),
            0xe0 => (0xa0..=0xbf, 2),
            0xed => (0x80..=0x9f, 2),
            0xe1..=0xef => (0x80..=0xbf, 2),
            0xf0 => (0x90..=0xbf, 3),
            0xf1..=0xf3 => (0x80..=0xbf, 3),
            0xf4 => (0x80..=0x8f, 3),
            _ => return Err(start),
        };
        self.at += 1;
        for index in 0..more {
            let allowed = if index == 0 {
                second.clone()
            } else {
                0x80..=0xbf
            };
            self.expect(|byte| allowed.contains(&byte))?;
        }
        std::str::from_utf8(&self.input[start..self.at]).map_err(|_| start)
    }

    fn escape(&mut self) -> Result<char, usize> {
        self.at += 1;
        let letter = self.expect(|byte| b"\"\\/bfnrtu".contains(&byte))?;
        Ok(match letter {
            b'b' => '\u{8}',
            b'f' => '\u{c}',
            b'n' => '\n',
            b'r' => '\r',
            b't' => '\t',
            b'u' => return self.unicode_escape(),
            itself => itself as char,
        })
    }

    /// The four digits after `\u`, with the low surrogate that completes a high
    /// one. A lone surrogate is noted and stands as U+FFFD.
    fn unicode_escape(&mut self) -> Result<char, usize> {
        let start = self.at;
        for _ in 0..4 {
            self.expect(|byte| byte.is_ascii_hexdigit())?;
        }
        let unit = hex(&self.input[start..self.at]);
        let mut code = unit;
        if (0xd800..0xdc00).contains(&unit) {
            if let Some(low) = self.low_surrogate_ahead() {
                self.at += 6;
                code = 0x10000 + ((unit - 0xd800) << 10) + (low - 0xdc00);
            }
        }
        Ok(char::from_u32(code).unwrap_or_else(|| {
            self.blemished = true;
            char::REPLACEMENT_CHARACTER
        }))
    }

    fn low_surrogate_ahead(&self) -> Option<u32> {
        let digits = self.input.get(self.at..self.at + 6)?.strip_prefix(b"\\u")?;
        let well_spelled = digits.iter().all(|byte| byte.is_ascii_hexdigit());
        let unit = well_spelled.then(|| hex(digits))?;
        (0xdc00..0xe000).contains(&unit).then_some(unit)
    }
}

fn hex(digits: &[u8]) -> u32 {
    digits.iter().fold(0, |sum, &digit| {
        sum * 16 + (digit as char).to_digit(16).unwrap_or(0)
    })
}

/// Names are compared decoded, without Unicode normalisation.
fn has_equal_names(members: &[(String, Value)]) -> bool {
    let mut seen = HashSet::new();
    !members.iter().all(|(name, _)| seen.insert(name.as_str()))
}

#[cfg(test)]
mod tests {
    use super::*;

    fn place(text: &[u8]) -> Option<usize> {
        read(text, 16).err()
    }

    #[test]
    fn faults_stand_at_the_first_byte_that_cannot_be() {
        let cases: &[(&[u8], usize)] = &[
            (b"", 0),
            (b"  ", 2),
            (b"\xef\xbb\xbf1", 0),
            (b"[01]", 2),
            (b"[1.]", 3),
            (b"nulx", 3),
            (b"nul", 3),
            (b"{\"a\":1,}", 7),
            (b"[1,]", 3),
            (b"{\"a\":1,\"a\":2,}", 13),
            (b"[\"\\ud800", 8),
            (b"\"\\ud800\\u00g", 11),
            (b"\"\\x\"", 2),
            (b"\"\xe0\x80\"", 2),
            (b"\"\xed\xa0\"", 2),
            (b"\"\xc0\"", 1),
            (b"\"\xf4\x90\"", 2),
            (b"\"\xe2\x82", 3),
            (b"\"a\tb\"", 2),
            (b"-", 1),
            (b"-x", 1),
            (b"1e+", 3),
            (b"1 1", 2),
            (b"[1}", 2),
            (b"{1", 1),
            (b"{\"a\" 1", 5),
        ];
        for (text, at) in cases {
            assert_eq!(place(text), Some(*at), "{}", text.escape_ascii());
        }
    }

    #[test]
    fn equal_names_and_lone_surrogates_have_place_0() {
        assert_eq!(place(b"[{\"a\":1,\"\\u0061\":2}]"), Some(0));
        assert_eq!(place(b"\"\\udc00\""), Some(0));
        assert_eq!(place(b"\"\\ud800\\ud800\\udc00\""), Some(0));
        assert_eq!(place(b"[{\"a\":1},{\"a\":2}]"), None);
    }

    #[test]
    fn depth_counts_objects_and_arrays_only() {
        let nest = |depth: usize| format!("{}1{}", "[".repeat(depth), "]".repeat(depth));
        assert_eq!(place(nest(16).as_bytes()), None);
        assert_eq!(place(nest(17).as_bytes()), Some(16));
    }

    #[test]
    fn strings_are_decoded() {
        let document = read(b" \"\\u0041\\/\\ud83d\\ude00\\b\xc3\xa9\x7f\" ", 16);
        let value = document.ok().map(|document| document.value);
        assert_eq!(value, Some(Value::string("A/\u{1f600}\u{8}\u{e9}\u{7f}")));
    }
}
