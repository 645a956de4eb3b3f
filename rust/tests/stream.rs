//! A stream of cards through `Cards`.

mod common;
use common::*;
use std::io::{self, BufReader, Read};
use thymebarrel::*;

/// A reader that gives so many bytes at a time.
struct Slow<'a>(&'a [u8], usize);

impl Read for Slow<'_> {
    fn read(&mut self, into: &mut [u8]) -> io::Result<usize> {
        let n = self.1.min(into.len());
        self.0.read(&mut into[..n])
    }
}

fn answers(text: &[u8]) -> Vec<Answer> {
    let all: io::Result<Vec<Answer>> = Cards::new(b"reg", text).collect();
    all.expect("a slice can be read")
}

/// Number, refusal number (0 where it converts) and the part of the text.
fn brief(text: &str) -> Vec<(usize, u8, &str)> {
    let of = |a: &Answer| a.result.as_ref().map_or_else(|r| r.number, |_| 0);
    let part = |a: &Answer| &text[a.offset as usize..(a.offset + a.length) as usize];
    let all = answers(text.as_bytes());
    all.iter().map(|a| (a.number, of(a), part(a))).collect()
}

const CARD: &str = "BEGIN:VCARD\r\nVERSION:4.0\r\nFN:a\r\nEND:VCARD\r\n";
const OPEN: &str = "begin:vcard\nVERSION:4.0\nFN:b\n";
const NO_FN: &str = "BEGIN:VCARD\nVERSION:4.0\nEND:VCARD\n";

#[test]
fn each_answer_has_its_number_and_its_part_of_the_input() {
    let text = format!("\n\r\n{CARD}{OPEN}{CARD}junk\n\n{NO_FN}{CARD}");
    let want = [
        (1, 0, CARD),
        (2, 2, OPEN),
        (3, 0, CARD),
        (3, 1, "junk\n"),
        (4, 10, NO_FN),
        (5, 0, CARD),
    ];
    assert_eq!(brief(&text), want);
}

#[test]
fn the_end_of_the_input() {
    assert_eq!(brief(""), []);
    assert_eq!(brief("\n\n"), []);
    assert_eq!(brief("junk"), [(0, 1, "junk")]);
    assert_eq!(brief("BEGIN:VCARD"), [(1, 2, "BEGIN:VCARD")]);
    assert_eq!(brief(OPEN), [(1, 2, OPEN)]);
    assert_eq!(brief(CARD.trim_end()), [(1, 0, CARD.trim_end())]);
    let text = format!("{OPEN}BEGIN:VCARD");
    assert_eq!(brief(&text), [(1, 2, OPEN), (2, 2, "BEGIN:VCARD")]);
}

#[test]
fn a_stream_gives_what_each_card_gives_alone() {
    let names = SAMPLES.iter().map(|name| format!("{name}.vcf"));
    let refused = REFUSED.iter().map(|(name, ..)| name.to_string());
    let cards: Vec<Vec<u8>> = names
        .chain(refused)
        .map(|n| sample(&n))
        .filter(|c| !c.is_empty())
        .collect();
    let all = answers(&cards.concat());
    assert_eq!(all.len(), cards.len());
    for (k, (card, answer)) in cards.iter().zip(all).enumerate() {
        assert_eq!(answer.number, k + 1);
        assert_eq!(answer.result, card_to_json(b"reg", k + 1, card));
        if let Err(refusal) = answer.result {
            assert_eq!(answer.explained, Some(refusal.explain_card(card)));
        }
    }
}

#[test]
fn cuts_do_not_matter() {
    let text = format!("{OPEN}{CARD}junk\r\n{NO_FN}\r\n{CARD}{OPEN}BEGIN:VCARD\r");
    let whole = answers(text.as_bytes());
    assert_eq!(whole.len(), 7);
    for size in 1..40 {
        let slow = BufReader::new(Slow(text.as_bytes(), size));
        let cut: io::Result<Vec<Answer>> = Cards::new(b"reg", slow).collect();
        assert_eq!(cut.expect("it can be read"), whole, "{size}");
    }
}

#[test]
fn a_card_over_its_room_is_one_answer() {
    let long = format!(
        "BEGIN:VCARD\nVERSION:4.0\nFN:{}\nEND:VCARD\n",
        "x".repeat(100_000)
    );
    let text = format!("{CARD}{long}{CARD}");
    assert_eq!(brief(&text), [(1, 0, CARD), (2, 3, &long), (3, 0, CARD)]);
    let told = answers(text.as_bytes())[1]
        .explained
        .clone()
        .expect("it is refused");
    assert_eq!(told.what, "The card has over 32,768 bytes.");
    assert!(
        told.place[0].starts_with("the longest line, 32744 bytes, is line 2 "),
        "{told}"
    );
}

#[test]
fn the_first_number_may_be_another() {
    let text = [CARD, CARD, CARD].concat();
    let mut cards = Cards::after(999_998, b"shop", text.as_bytes());
    let first = cards.next().expect("an answer").expect("read");
    let json = first.result.expect("it converts");
    assert_eq!(
        (first.number, member(&json, "uid")),
        (999_999, Some("\"shop-999999\""))
    );
    let second = cards.next().expect("an answer").expect("read");
    assert_eq!(
        (second.number, second.result),
        (
            1_000_000,
            Err(Refusal {
                number: 3,
                place: 0
            })
        )
    );
    let told = second.explained.expect("it is refused");
    assert_eq!(told.what, "A stream has at most 999,999 cards.");
    let third = cards.next().expect("an answer").expect("read");
    assert_eq!(
        (third.number, third.result),
        (
            1_000_001,
            Err(Refusal {
                number: 3,
                place: 0
            })
        )
    );
    assert!(cards.next().is_none() && cards.next().is_none());
}

#[test]
fn a_bad_stem_is_answered_once() {
    let all: Vec<_> = Cards::new(b"a b", CARD.as_bytes()).collect();
    assert_eq!(all.len(), 1);
    let answer = all[0].as_ref().expect("read");
    assert_eq!(
        answer.result,
        Err(Refusal {
            number: 15,
            place: 0
        })
    );
    assert_eq!(Cards::new(b"", &b""[..]).count(), 1);
}

#[test]
fn an_input_that_fails_ends_the_stream() {
    struct Broken;
    impl Read for Broken {
        fn read(&mut self, _: &mut [u8]) -> io::Result<usize> {
            Err(io::Error::other("the line is dead"))
        }
    }
    let mut cards = Cards::new(b"reg", BufReader::new(CARD.as_bytes().chain(Broken)));
    assert!(cards.next().expect("an answer").is_ok());
    assert!(cards.next().expect("the error").is_err());
    assert!(cards.next().is_none());
}

/// The count does not turn round, and the reason stays true.
#[test]
fn no_number_is_too_large_to_begin_with() {
    let text = [CARD, CARD].concat();
    for answer in Cards::after(usize::MAX, "reg", text.as_bytes()) {
        let answer = answer.expect("read");
        assert_eq!(answer.number, usize::MAX);
        let told = answer.explained.expect("it is refused");
        assert_eq!(told.what, "A stream has at most 999,999 cards.");
    }
}

#[test]
fn a_made_uid_is_told() {
    let own = "BEGIN:VCARD\nVERSION:4.0\nFN:a\nU\n ID:reg-2\nEND:VCARD\n";
    let other = "BEGIN:VCARD\nVERSION:4.0\nFN:a\nUID:x\nEND:VCARD\n";
    let text = [CARD, own, other, NO_FN, CARD].concat();
    let made: Vec<bool> = answers(text.as_bytes())
        .iter()
        .map(|a| a.uid_made)
        .collect();
    assert_eq!(made, [true, false, false, false, true]);
}

#[test]
fn debug_shows_where_a_stream_is() {
    let mut cards = Cards::new("reg", CARD.as_bytes());
    cards.next();
    assert_eq!(
        format!("{cards:?}"),
        "Cards { number: 1, at: 43, over: false, .. }"
    );
}
