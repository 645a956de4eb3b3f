//! The table of times: each service on its workloads, beside the baseline.

use crate::measure::{alternating, Work};
use crate::workloads;
use std::hint::black_box;
use thymebarrel::{CARD_BYTES, JSON_BYTES};
use thymebarrel_baseline as baseline;

/// The same work by the baseline, by the library, and, where there is an output, by
/// the library with all of the output cleared before each call.
pub struct Workload<'a> {
    name: &'static str,
    bytes: usize,
    /// The times are per card.
    cards: usize,
    pub sides: Vec<Work<'a>>,
}

pub fn print() {
    let (ordinary, international) = (workloads::ordinary(), workloads::international());
    let (full, prop_ids) = (workloads::full(), workloads::prop_ids());
    let (json, foreign) = (json_of(&ordinary), json_of(&international));
    let (home, map) = (json_of(&workloads::full_home()), json_of(&prop_ids));
    let (full_json, names) = (json_of(&full), workloads::names());
    let stream = workloads::ordinary_cards();
    row(["Workload", "bytes", "base us", "ours us", "MB/s", "ratio", "cleared first us"].map(str::to_string));
    println!("|---|---|---|---|---|---|---|");
    measure(card_to_json("ordinary card to JSON (12 lines, ASCII)", &ordinary));
    measure(card_to_json("folded international card to JSON", &international));
    measure(card_to_json("full card to JSON (512 lines)", &full));
    measure(card_to_json("509 lines with PROP-ID to JSON", &prop_ids));
    measure(card_to_json("card to JSON, refused at the first line", b"no card"));
    measure(json_to_card("ordinary card's JSON to card (12 lines)", &json));
    measure(json_to_card("international card's JSON to card", &foreign));
    measure(json_to_card("full card's JSON to card (512 lines)", &home));
    measure(json_to_card("509 entries of one map to a card", &map));
    measure(json_to_card("9,000 names to a card, refused (12)", &names));
    measure(json_to_card("JSON to card, refused at the first byte", b"no JSON"));
    measure(look_up("look-up, an ordinary card's JSON", &json));
    measure(look_up("look-up, an international card's JSON", &foreign));
    measure(look_up("look-up, a full card's JSON (512 lines)", &full_json));
    measure(look_up("look-up, 509 entries in one map", &map));
    measure(look_up("look-up, 9,000 names in one object", &names));
    measure(look_up("look-up, refused at the first byte", b"no JSON"));
    measure(cards("10 MB of ordinary cards, 64 KiB pieces, a card", &stream, 65_536));
    measure(cards("10 MB of ordinary cards, one piece, a card", &stream, stream.len()));
    measure(cards("10 MB of ordinary cards, 1-byte pieces, a card", &stream, 1));
}

/// The JSON of a card, by the baseline; the card is one that converts.
pub fn json_of(card: &[u8]) -> Vec<u8> {
    baseline::card_to_json(card, b"reg", 1, JSON_BYTES).bytes
}

fn measure(mut workload: Workload) {
    let times = alternating(&mut workload.sides, 2.0);
    let per_card: Vec<f64> = times.iter().map(|time| time / workload.cards as f64).collect();
    let cleared = per_card.get(2).map_or("-".to_string(), |&time| shown(time));
    row([
        workload.name.to_string(),
        grouped(workload.bytes),
        shown(per_card[0]),
        shown(per_card[1]),
        format!("{:.0}", workload.bytes as f64 / times[1]),
        format!("{:.2}", times[0] / times[1]),
        cleared,
    ]);
}

/// A row of a Markdown table that can be read on a terminal too.
fn row([name, bytes, base, ours, speed, ratio, cleared]: [String; 7]) {
    println!("| {name:<46} | {bytes:>9} | {base:>7} | {ours:>7} | {speed:>4} | {ratio:>5} | {cleared:>16} |");
}

/// Three digits or more of a time.
fn shown(microseconds: f64) -> String {
    match microseconds {
        time if time < 100.0 => format!("{time:.2}"),
        time => grouped(time.round() as usize),
    }
}

/// With commas at the thousands.
pub fn grouped(number: usize) -> String {
    let digits = number.to_string();
    let mut grouped = String::new();
    for (index, digit) in digits.chars().enumerate() {
        if index > 0 && (digits.len() - index).is_multiple_of(3) {
            grouped.push(',');
        }
        grouped.push(digit);
    }
    grouped
}

pub fn card_to_json<'a>(name: &'static str, card: &'a [u8]) -> Workload<'a> {
    let mut out = vec![0u8; JSON_BYTES];
    let mut cleared = vec![0u8; JSON_BYTES];
    let want = baseline::card_to_json(card, b"reg", 1, JSON_BYTES);
    match thymebarrel::card_to_json_into(b"reg", 1, card, &mut out) {
        Ok(length) => assert_eq!(out[..length], want.bytes, "{name}"),
        Err(refusal) => assert_eq!((u32::from(refusal.number), refusal.place), (want.number, want.place), "{name}"),
    }
    let theirs = move || {
        black_box(baseline::card_to_json(black_box(card), b"reg", 1, JSON_BYTES));
    };
    let ours = move || {
        let _ = black_box(thymebarrel::card_to_json_into(b"reg", 1, black_box(card), &mut out));
    };
    let ours_cleared = move || {
        black_box(&mut cleared).fill(0);
        let _ = black_box(thymebarrel::card_to_json_into(b"reg", 1, black_box(card), &mut cleared));
    };
    Workload { name, bytes: card.len(), cards: 1, sides: vec![Box::new(theirs), Box::new(ours), Box::new(ours_cleared)] }
}

pub fn json_to_card<'a>(name: &'static str, json: &'a [u8]) -> Workload<'a> {
    let mut out = vec![0u8; CARD_BYTES];
    let mut cleared = vec![0u8; CARD_BYTES];
    let want = baseline::json_to_card(json, CARD_BYTES);
    match thymebarrel::json_to_card_into(json, &mut out) {
        Ok(length) => assert_eq!(out[..length], want.bytes, "{name}"),
        Err(refusal) => assert_eq!((u32::from(refusal.number), refusal.place), (want.number, want.place), "{name}"),
    }
    let theirs = move || {
        black_box(baseline::json_to_card(black_box(json), CARD_BYTES));
    };
    let ours = move || {
        let _ = black_box(thymebarrel::json_to_card_into(black_box(json), &mut out));
    };
    let ours_cleared = move || {
        black_box(&mut cleared).fill(0);
        let _ = black_box(thymebarrel::json_to_card_into(black_box(json), &mut cleared));
    };
    Workload { name, bytes: json.len(), cards: 1, sides: vec![Box::new(theirs), Box::new(ours), Box::new(ours_cleared)] }
}

fn look_up<'a>(name: &'static str, text: &'a [u8]) -> Workload<'a> {
    assert_eq!(thymebarrel::member(text, b"uid").unwrap_or_default().as_bytes(), baseline::look_up(text, b"uid"), "{name}");
    let theirs = move || {
        black_box(baseline::look_up(black_box(text), b"uid"));
    };
    let ours = move || {
        black_box(thymebarrel::member(black_box(text), b"uid"));
    };
    Workload { name, bytes: text.len(), cards: 1, sides: vec![Box::new(theirs), Box::new(ours)] }
}

/// A whole stream in pieces of that size.
fn cards<'a>(name: &'static str, text: &'a [u8], size: usize) -> Workload<'a> {
    let mut buffer = vec![0u8; CARD_BYTES];
    let mut out = vec![0u8; JSON_BYTES];
    let cards = ours_reads(text, size, &mut buffer, &mut out);
    assert_eq!(cards, theirs_reads(text, size), "{name}");
    let theirs = move || {
        black_box(theirs_reads(text, size));
    };
    let ours = move || {
        black_box(ours_reads(text, size, &mut buffer, &mut out));
    };
    Workload { name, bytes: text.len(), cards, sides: vec![Box::new(theirs), Box::new(ours)] }
}

/// How many cards give JSON.
pub fn ours_reads(text: &[u8], size: usize, buffer: &mut [u8], out: &mut [u8]) -> usize {
    let mut lent = thymebarrel::Lent { buffer, out };
    let mut stream = thymebarrel::Stream::fresh();
    let mut cards = 0;
    for piece in text.chunks(size) {
        let mut at = 0;
        while at < piece.len() {
            let (said, used) = stream.step(b"reg", &piece[at..], &mut lent);
            cards += usize::from(matches!(said, thymebarrel::Said::Json(_)));
            at += used;
        }
    }
    stream.end(b"reg", &mut lent);
    cards
}

fn theirs_reads(text: &[u8], size: usize) -> usize {
    let mut reader = baseline::Reader::fresh();
    let mut cards = 0;
    for piece in text.chunks(size) {
        let mut at = 0;
        while at < piece.len() {
            let told = reader.piece(b"reg", &piece[at..]);
            cards += usize::from(matches!(told.what, baseline::What::Json(_)));
            at += told.consumed;
        }
    }
    reader.end(b"reg");
    cards
}
