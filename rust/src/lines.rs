//! Where a card's unfolded lines stand in its bytes, to show them to a person. The
//! converter does not use this: it only words what the proved library answered.

/// An unfolded line: its bytes, and the number of the first physical line (from 1,
/// BEGIN's) that it takes.
pub struct Line {
    pub bytes: Vec<u8>,
    pub in_file: usize,
}

/// The unfolded lines after BEGIN, END's the last.
pub fn unfolded(card: &[u8]) -> Vec<Line> {
    let mut lines: Vec<Line> = Vec::new();
    let card = card.strip_suffix(b"\n").unwrap_or(card);
    for (k, physical) in card.split(|b| *b == b'\n').enumerate().skip(1) {
        let physical = physical.strip_suffix(b"\r").unwrap_or(physical);
        match (lines.last_mut(), physical.split_first()) {
            (Some(line), Some((b' ' | b'\t', rest))) => line.bytes.extend_from_slice(rest),
            _ => lines.push(Line {
                bytes: physical.to_vec(),
                in_file: k + 1,
            }),
        }
    }
    lines
}

/// Whether a line is named UID.
pub fn has_uid(card: &[u8]) -> bool {
    unfolded(card).iter().any(|line| line.name() == "UID")
}

impl Line {
    /// The first line of a text, as it stands there.
    pub fn first(text: &[u8]) -> Line {
        let line = text.split(|b| *b == b'\n').next().unwrap_or(text);
        Line {
            bytes: line.strip_suffix(b"\r").unwrap_or(line).to_vec(),
            in_file: 1,
        }
    }

    /// The name of the property, in capitals, without its group.
    pub fn name(&self) -> String {
        let end = self.bytes.iter().position(|b| b";:".contains(b));
        let name = &self.bytes[..end.unwrap_or(self.bytes.len())];
        let after_dot = name.rsplit(|b| *b == b'.').next().unwrap_or(name);
        String::from_utf8_lossy(after_dot).to_ascii_uppercase()
    }

    /// Whether it has one of these names.
    pub fn is_named(&self, names: &[&str]) -> bool {
        names.contains(&self.name().as_str())
    }

    /// What follows the first colon; of a line with parameters perhaps more than its value.
    pub fn value(&self) -> &[u8] {
        let colon = self.bytes.iter().position(|b| *b == b':');
        colon.map_or(&[], |k| &self.bytes[k + 1..])
    }

    /// The first byte of the line (from 0) that is not UTF-8, or is a control.
    pub fn garbled(&self) -> Option<(usize, Garbled)> {
        let control = |b: &u8| b.is_ascii_control() && *b != b'\t';
        let valid = match std::str::from_utf8(&self.bytes) {
            Ok(text) => text.len(),
            Err(error) => error.valid_up_to(),
        };
        if let Some(k) = self.bytes[..valid].iter().position(control) {
            return Some((k, Garbled::Control(self.bytes[k])));
        }
        let bad = self.bytes.get(valid)?;
        Some((valid, Garbled::NotUtf8(*bad)))
    }
}

/// What 4 refuses, with the byte.
pub enum Garbled {
    NotUtf8(u8),
    Control(u8),
}
