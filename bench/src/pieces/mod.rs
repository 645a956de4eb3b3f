//! The table of pieces: what the services are made of, each beside the baseline's own
//! function for the same work, on three cards and their JSON.

mod ffi;
mod parts;

use crate::measure::{alternating, Work};
use crate::times::json_of;
use crate::workloads;
use ffi::{Scratch, Writer};
use parts::{Card, Parts};
use std::hint::black_box;
use thymebarrel::{CARD_BYTES, JSON_BYTES};
use thymebarrel_baseline::limits::{CARD_LINES, JSON_DEPTH};
use thymebarrel_baseline::pieces as baseline;

/// Seconds for each piece on each card.
const SECONDS: f64 = 1.0;

/// A piece's nanoseconds a byte, and how often they go into the baseline's, where that
/// has a function for the same work.
struct Measured {
    time: f64,
    ratio: Option<f64>,
}

type Piece = fn(&Card) -> Measured;

const PIECES: [(&str, Piece); 12] = [
    ("frame and unfolding (`frame_of`, `unfold`)", unfold),
    ("UTF-8 and controls (`first_garbled`)", garbled),
    ("lines taken apart (`line_table::fill`)", parse),
    ("parameters, one pass (`scan_rows`, `mark_rows`)", parameters),
    ("TEXT read (`read_text`)", read_text),
    ("line folded (`pen_bytes`)", |card| appended(&card.lines, Writer::Pen, baseline::fold)),
    ("JSON string written (`put_string`)", |card| appended(&card.strings, Writer::JsonString, baseline::write_string)),
    ("JSON string decoded (`decode_into`)", decode),
    ("JSON string spelled anew (`put_requoted`)", |card| appended(&card.spelled, Writer::Requote, requote)),
    ("JSON written compactly (`put_compact`)", |card| appended(&card.json, Writer::Compact, |_, out| baseline::write_json(&card.tree, out))),
    ("JSON read and written compactly", read_and_compact),
    ("JSON read (`json_read::read`)", |card| read(&card.json.bytes)),
];

pub fn print() {
    let cards = [workloads::ordinary(), workloads::international(), workloads::full()];
    let cards = cards.map(|card| Card::new(json_of(&card), card));
    row("Piece", "ns a byte", "ratio");
    println!("|---|---|---|");
    for (name, piece) in PIECES {
        let measured: Vec<Measured> = cards.iter().map(piece).collect();
        show(name, &measured);
    }
    show("9,000 names in one object, read", &[read(&workloads::names())]);
}

fn show(name: &str, measured: &[Measured]) {
    let times: Vec<String> = measured.iter().map(|piece| format!("{:.2}", piece.time)).collect();
    let ratio = |piece: &Measured| piece.ratio.map_or("-".to_string(), |ratio| format!("{ratio:.2}"));
    let ratios: Vec<String> = measured.iter().map(ratio).collect();
    row(name, &times.join(" / "), &ratios.join(" / "));
}

/// A row of a Markdown table that can be read on a terminal too.
fn row(name: &str, times: &str, ratios: &str) {
    println!("| {name:<50} | {times:>20} | {ratios:>20} |");
}

/// The baseline's work and ours, over so many bytes.
fn measured<'a>(bytes: usize, theirs: impl FnMut() + 'a, ours: impl FnMut() + 'a) -> Measured {
    let mut sides: [Work; 2] = [Box::new(theirs), Box::new(ours)];
    let times = alternating(&mut sides, SECONDS);
    Measured { time: times[1] * 1e3 / bytes as f64, ratio: Some(times[0] / times[1]) }
}

/// Our writer over all parts, which is to write what is wanted.
fn written<'a>(parts: &'a Parts, writer: Writer, want: &[u8], theirs: impl FnMut() + 'a) -> Measured {
    let mut out = vec![0; 2 * JSON_BYTES];
    let length = ffi::put(&mut out, parts, writer);
    assert!(out[..length] == *want, "{:?}", String::from_utf8_lossy(&out[..length]));
    let ours = move || {
        black_box(ffi::put(&mut out, black_box(parts), writer));
    };
    measured(parts.bytes.len(), theirs, ours)
}

/// The same, where the baseline appends to a string, which is empty at first, as in its
/// services.
fn appended(parts: &Parts, writer: Writer, append: impl Fn(&str, &mut String)) -> Measured {
    let texts = parts.texts();
    let append_all = || {
        let mut out = String::new();
        for text in black_box(&texts) {
            append(text, &mut out);
        }
        out
    };
    let want = append_all();
    let theirs = || {
        black_box(append_all());
    };
    written(parts, writer, want.as_bytes(), theirs)
}

fn unfold(card: &Card) -> Measured {
    let (mut out, mut starts) = (vec![0; CARD_BYTES], vec![0; CARD_LINES + 1]);
    let count = ffi::unfold(&mut out, &mut starts, &card.card);
    assert_eq!(starts[..=count], card.lines.starts);
    assert!(out.starts_with(&card.lines.bytes));
    let theirs = || {
        let physical = baseline::between_begin_and_end(black_box(&card.card)).expect("one card");
        black_box(baseline::unfold(&physical));
    };
    let ours = || {
        black_box(ffi::unfold(&mut out, &mut starts, black_box(&card.card)));
    };
    measured(card.card.len(), theirs, ours)
}

fn garbled(card: &Card) -> Measured {
    let lines = card.lines.slices();
    assert_eq!(ffi::garbled(&card.lines), 0);
    let theirs = || {
        for line in black_box(&lines) {
            black_box(baseline::read_line(line));
        }
    };
    let ours = || {
        black_box(ffi::garbled(black_box(&card.lines)));
    };
    measured(card.lines.bytes.len(), theirs, ours)
}

fn parse(card: &Card) -> Measured {
    let mut scratch = Scratch::new();
    let lines = card.lines.texts();
    assert_eq!(ffi::parse(&mut scratch, &card.lines, false), lines.len());
    let theirs = || {
        for line in black_box(&lines) {
            black_box(baseline::Line::read(line));
        }
    };
    let ours = move || {
        black_box(ffi::parse(&mut scratch, black_box(&card.lines), false));
    };
    measured(card.lines.bytes.len(), theirs, ours)
}

fn map_and_line(text: &str) -> Option<(baseline::Map, baseline::Line)> {
    let line = baseline::Line::read(text)?;
    Some((baseline::Map::of_property(&line.name)?, line))
}

/// The parameters of the lines of the seven maps. Ours are looked at while the line's
/// table is at hand, so what it takes to fill it is measured too, and taken off.
fn parameters(card: &Card) -> Measured {
    let lines: Vec<(baseline::Map, baseline::Line)> = card.map_lines.texts().into_iter().filter_map(map_and_line).collect();
    let (mut scratch, mut other) = (Scratch::new(), Scratch::new());
    assert_eq!(ffi::parse(&mut scratch, &card.map_lines, true), lines.len());
    let theirs = || {
        for (map, line) in black_box(&lines) {
            black_box(baseline::Given::read(*map, line));
        }
    };
    let filled = move || {
        black_box(ffi::parse(&mut other, black_box(&card.map_lines), false));
    };
    let marked = move || {
        black_box(ffi::parse(&mut scratch, black_box(&card.map_lines), true));
    };
    let mut sides: [Work; 3] = [Box::new(theirs), Box::new(filled), Box::new(marked)];
    let times = alternating(&mut sides, SECONDS);
    let ours = times[2] - times[1];
    Measured { time: ours * 1e3 / card.map_lines.bytes.len() as f64, ratio: Some(times[0] / ours) }
}

fn read_text(card: &Card) -> Measured {
    let values = card.values.texts();
    let theirs = move || {
        for value in black_box(&values) {
            black_box(baseline::read_text(value));
        }
    };
    written(&card.values, Writer::ReadText, &card.texts.bytes, theirs)
}

fn decode(card: &Card) -> Measured {
    let strings = card.spelled.slices();
    let theirs = move || {
        for string in black_box(&strings) {
            let _ = black_box(baseline::string_at(string, 0));
        }
    };
    written(&card.spelled, Writer::Decode, &card.strings.bytes, theirs)
}

fn requote(string: &str, out: &mut String) {
    let text = baseline::string_at(string.as_bytes(), 0).expect("a string");
    baseline::write_string(&text, out);
}

fn tree_of(json: &[u8]) -> baseline::Value {
    baseline::read_json(json, JSON_DEPTH).expect("JSON").value
}

fn read(json: &[u8]) -> Measured {
    assert_eq!(ffi::read(json), json.len());
    let theirs = || {
        black_box(tree_of(black_box(json)));
    };
    let ours = || {
        black_box(ffi::read(black_box(json)));
    };
    measured(json.len(), theirs, ours)
}

fn read_and_compact(card: &Card) -> Measured {
    let mut out = vec![0; JSON_BYTES];
    let theirs = || {
        let mut out = String::new();
        baseline::write_json(&tree_of(black_box(&card.json.bytes)), &mut out);
        black_box(out);
    };
    let ours = || {
        black_box(ffi::read(black_box(&card.json.bytes)));
        black_box(ffi::put(&mut out, &card.json, Writer::Compact));
    };
    measured(card.json.bytes.len(), theirs, ours)
}
