//! Refusal 1: which of its causes the bytes show. Each is enough by itself.

use super::shown::beginning;
use super::Explanation;

/// A file of another kind, or a byte order mark, by its first bytes.
pub fn other_kind(bytes: &[u8]) -> Option<Explanation> {
    let begins = |bytes: &[u8]| {
        let first = &bytes[..bytes.len().min(11)];
        first.eq_ignore_ascii_case(b"BEGIN:VCARD")
    };
    let (what, advice) = match bytes {
        [0xef, 0xbb, 0xbf, rest @ ..] if begins(rest) => (
            "A byte order mark stands before BEGIN:VCARD.",
            "Take its three bytes away: the command does so with --skip-bom.",
        ),
        [0xff, 0xfe, ..] | [0xfe, 0xff, ..] | [b'B' | b'b', 0, ..] | [0, b'B' | b'b', ..] => {
            ("This is UTF-16.", "Save the card as UTF-8.")
        }
        _ if matches!(bytes.trim_ascii_start().first(), Some(b'{' | b'[')) => (
            "This looks like JSON, not like a card.",
            "Use thymebarrel card, json_to_card in a program.",
        ),
        _ => return None,
    };
    Some(Explanation::new(what, advice))
}

/// None where no cause is found.
pub fn explain(card: &[u8]) -> Option<Explanation> {
    if card.is_empty() {
        return Some(Explanation::new(
            "The card is empty.",
            "Look whether the program before it wrote anything.",
        ));
    }
    let frame = Frame::of(card);
    other_kind(card)
        .or_else(|| line_ends(card, &frame))
        .or_else(|| frame.blank_lines())
        .or_else(|| frame.spaces())
        .or_else(|| frame.several())
        .or_else(|| frame.outside())
        .or_else(|| frame.inside())
}

fn line_ends(card: &[u8], frame: &Frame) -> Option<Explanation> {
    let cr_only = frame.lines.len() == 1 && card.contains(&b'\r') && !card.contains(&b'\n');
    cr_only.then(|| {
        Explanation::new(
            "The lines end with CR alone.",
            "Save the card with LF or CR LF at the end of each line.",
        )
    })
}

#[derive(Clone, Copy, PartialEq)]
enum Edge {
    Begin,
    End,
}

/// The card's physical lines, without their line ends.
struct Frame<'a> {
    lines: Vec<&'a [u8]>,
}

impl Frame<'_> {
    fn of(card: &[u8]) -> Frame<'_> {
        let text = card.strip_suffix(b"\n").unwrap_or(card);
        let line = |line: &'_ [u8]| -> usize { line.len() - usize::from(line.ends_with(b"\r")) };
        Frame {
            lines: text.split(|b| *b == b'\n').map(|l| &l[..line(l)]).collect(),
        }
    }

    fn first(&self) -> &[u8] {
        self.lines.first().copied().unwrap_or_default()
    }

    fn last(&self) -> &[u8] {
        self.lines.last().copied().unwrap_or_default()
    }

    fn has_end(&self) -> bool {
        self.lines.iter().any(|line| is(Edge::End, line))
    }

    fn blank_lines(&self) -> Option<Explanation> {
        let blank = |line: &&&[u8]| line.trim_ascii().is_empty();
        let before = self.lines.iter().take_while(blank).count();
        let after = self.lines.iter().rev().take_while(blank).count();
        let at = |k: usize| self.lines.get(k).copied().unwrap_or_default();
        let what = if before > 0 && is(Edge::Begin, at(before)) {
            "An empty line stands before BEGIN:VCARD."
        } else if after > 0 && is(Edge::End, at(self.lines.len().wrapping_sub(after + 1))) {
            "An empty line stands after END:VCARD."
        } else {
            return None;
        };
        let advice = "Take empty lines around the card away, or use thymebarrel stream, which passes over them.";
        Some(Explanation::new(what, advice))
    }

    fn spaces(&self) -> Option<Explanation> {
        let (first, last) = (self.first(), self.last());
        let what = if is(Edge::Begin, first.trim_ascii()) && !is(Edge::Begin, first) {
            "White space stands beside BEGIN:VCARD on its line."
        } else if is(Edge::End, last.trim_ascii()) && !is(Edge::End, last) {
            "White space stands beside END:VCARD on its line."
        } else {
            return None;
        };
        Some(Explanation::new(what, "Take it away."))
    }

    /// Cards one after the other: BEGIN and END in turn, from the first line to the last.
    fn several(&self) -> Option<Explanation> {
        let is_begin = |line: &&[u8]| is(Edge::Begin, line);
        let edges = self.lines.iter().copied();
        let edges: Vec<bool> = edges
            .filter(|line| is(Edge::Begin, line) || is(Edge::End, line))
            .map(|line| is_begin(&line))
            .collect();
        let in_turn = edges
            .iter()
            .enumerate()
            .all(|(k, begin)| *begin == (k % 2 == 0));
        let whole = is(Edge::Begin, self.first()) && is(Edge::End, self.last());
        let cards = edges.len() / 2;
        (whole && in_turn && cards > 1).then(|| {
            let what = format!("There are {cards} cards here.");
            let advice = "Use thymebarrel stream, in a program the stream: it takes one card after the other.";
            Explanation::new(what, advice)
        })
    }

    /// What stands before BEGIN or after END, or in their place.
    fn outside(&self) -> Option<Explanation> {
        if !is(Edge::Begin, self.first()) {
            let shown = format!("line 1: {}", beginning(self.first()));
            let advice = "Send the card whole, with BEGIN:VCARD as its first line.";
            return Some(
                Explanation::new("The first line is not BEGIN:VCARD.", advice).placed(vec![shown]),
            );
        }
        if is(Edge::End, self.last()) {
            return None;
        }
        if !self.has_end() {
            let advice = "Send the card again, whole, with END:VCARD as its last line.";
            return Some(Explanation::new(
                "The card has no END:VCARD: perhaps it was cut off.",
                advice,
            ));
        }
        let shown = format!("line {}: {}", self.lines.len(), beginning(self.last()));
        let advice =
            "Take out what stands after END:VCARD; several cards go through thymebarrel stream.";
        Some(Explanation::new("The last line is not END:VCARD.", advice).placed(vec![shown]))
    }

    /// BEGIN or END between the first line and the last.
    fn inside(&self) -> Option<Explanation> {
        let inner = self
            .lines
            .iter()
            .enumerate()
            .skip(1)
            .take(self.lines.len().saturating_sub(2));
        let (k, line) = inner
            .into_iter()
            .find(|(_, line)| is(Edge::Begin, line) || is(Edge::End, line))?;
        let shown = format!("line {}: {}", k + 1, beginning(line));
        let what = "Such a line stands within the card.";
        Some(
            Explanation::new(what, "Take this line out, or send each card by itself.")
                .placed(vec![shown]),
        )
    }
}

fn is(edge: Edge, line: &[u8]) -> bool {
    line.eq_ignore_ascii_case(match edge {
        Edge::Begin => b"BEGIN:VCARD".as_slice(),
        Edge::End => b"END:VCARD".as_slice(),
    })
}
