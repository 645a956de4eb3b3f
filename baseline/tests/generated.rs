//! The claims that hold of every input, tried on generated ones: 100,000 in
//! all, from fixed seeds.

use std::collections::BTreeMap;
use thymebarrel_baseline::generate::{self, Rng, Step};
use thymebarrel_baseline::limits::{CARD_BYTES, CARD_LINES, JSON_BYTES};
use thymebarrel_baseline::*;

/// How often each answer number was given.
#[derive(Debug, Default)]
struct Tally(BTreeMap<u32, usize>);

impl Tally {
    fn count(&mut self, number: u32) {
        *self.0.entry(number).or_default() += 1;
    }

    fn assert_reached(&self, numbers: impl IntoIterator<Item = u32>) {
        for number in numbers {
            let times = self.0.get(&number).copied().unwrap_or(0);
            assert!(times >= 5, "{number} was answered {times} times: {self:?}");
        }
    }

    fn assert_mostly_accepted(&self) {
        let all: usize = self.0.values().sum();
        assert!(self.0[&0] > all / 2, "{self:?}");
    }
}

fn show(bytes: &[u8]) -> String {
    bytes.escape_ascii().to_string()
}

/// The unfolded lines between BEGIN and END of a card with CR LF ends.
fn unfolded_lines(card: &[u8]) -> usize {
    let lines = card.split(|&byte| byte == b'\n');
    lines
        .filter(|line| !line.is_empty() && line[0] != b' ')
        .count()
        - 2
}

/// Home again: exactly the normal form, or 3 exactly when that has no room.
/// Gives the number of the way home.
fn check_card(card: &[u8], stem: &[u8], number: u64, json: &[u8]) -> u32 {
    let normal = normal_card(card, stem, number);
    let home = json_to_card(json, CARD_BYTES);
    let fits = normal.len() <= CARD_BYTES && unfolded_lines(&normal) <= CARD_LINES;
    if !fits {
        assert_eq!((home.number, home.place), (3, 0), "{}", show(card));
        return 3;
    }
    assert_eq!(home.number, 0, "{} gives {}", show(card), show(json));
    assert_eq!(show(&home.bytes), show(&normal), "{}", show(card));
    assert_eq!(normal_card(&normal, b"other", 9), normal, "{}", show(card));
    assert_eq!(card_to_json(&normal, b"other", 9, JSON_BYTES).bytes, json);
    0
}

#[test]
fn cards_come_home_in_their_normal_form() {
    let mut rng = Rng::new(0x5eed_0001);
    let (mut tally, mut homes) = (Tally::default(), Tally::default());
    for round in 0..40_000 {
        let card = match round % 300 {
            0 => generate::large_card(&mut rng),
            _ => generate::card(&mut rng),
        };
        let (stem, number) = (generate::stem(&mut rng), generate::number(&mut rng));
        let answer = card_to_json(&card, &stem, number, JSON_BYTES);
        tally.count(answer.number);
        if answer.number == 0 {
            homes.count(check_card(&card, &stem, number, &answer.bytes));
        } else {
            assert!(answer.bytes.is_empty());
        }
    }
    tally.assert_reached([0, 1, 3, 4, 5, 6, 7, 8, 9, 10, 15]);
    tally.assert_mostly_accepted();
    homes.assert_reached([0, 3]);
}

/// There and back: exactly the normal form, or 3 exactly when that has no
/// room. Gives the number of the way back.
fn check_json(json: &[u8], card: &[u8]) -> u32 {
    let normal = normal_json(json);
    let back = card_to_json(card, b"any", 7, JSON_BYTES);
    if normal.len() > JSON_BYTES {
        assert_eq!((back.number, back.place), (3, 0), "{}", show(json));
        return 3;
    }
    assert_eq!(back.number, 0, "{} gives {}", show(json), show(card));
    assert_eq!(show(&back.bytes), show(&normal), "{}", show(json));
    assert_eq!(normal_json(&normal), normal, "{}", show(json));
    assert_eq!(json_to_card(&normal, CARD_BYTES).bytes, card);
    assert_eq!(normal_card(card, b"any", 7), card, "{}", show(card));
    0
}

#[test]
fn json_comes_back_in_its_normal_form() {
    let mut rng = Rng::new(0x5eed_0002);
    let (mut tally, mut ways_back) = (Tally::default(), Tally::default());
    for round in 0..40_000 {
        let json = match round % 300 {
            0 => generate::large_json(&mut rng),
            _ => generate::json(&mut rng),
        };
        let answer = json_to_card(&json, CARD_BYTES);
        tally.count(answer.number);
        if answer.number == 0 {
            ways_back.count(check_json(&json, &answer.bytes));
        } else {
            assert!(answer.bytes.is_empty());
        }
    }
    tally.assert_reached([0, 3, 11, 12, 13]);
    tally.assert_mostly_accepted();
    ways_back.assert_reached([0, 3]);
}

/// Each cause of 11, 12 and 13, each room and what is just accepted gives the
/// number that 01 has for it, however the text is spelled.
#[test]
fn each_cause_has_its_number() {
    let mut rng = Rng::new(0x5eed_0005);
    for cause in generate::causes() {
        for _ in 0..50 {
            let json = cause.text(&mut rng);
            let answer = json_to_card(&json, CARD_BYTES);
            assert_eq!(
                answer.number,
                cause.number,
                "{}: {}",
                cause.name,
                show(&json)
            );
        }
    }
}

/// With less room than the result has bytes, and no earlier refusal, 14.
#[test]
fn an_output_too_short_is_14() {
    let mut rng = Rng::new(0x5eed_0003);
    for _ in 0..2_000 {
        let card = generate::card(&mut rng);
        let full = card_to_json(&card, b"reg", 1, JSON_BYTES);
        let length = full.bytes.len();
        let short = card_to_json(&card, b"reg", 1, rng.below(length));
        let number = if full.number == 0 { 14 } else { full.number };
        assert_eq!((short.number, short.place), (number, full.place));
        assert_eq!(card_to_json(&card, b"reg", 1, length), full);

        let json = generate::json(&mut rng);
        let full = json_to_card(&json, CARD_BYTES);
        let length = full.bytes.len();
        let short = json_to_card(&json, rng.below(length));
        let number = if full.number == 0 { 14 } else { full.number };
        assert_eq!((short.number, short.place), (number, full.place));
        assert_eq!(json_to_card(&json, length), full);
    }
}

/// Feeds a stream in pieces of up to that length, with calls of a bad stem in
/// between. Gives the answers apart from more.
fn run_stream(steps: &[Step], rng: &mut Rng, longest_piece: usize) -> Vec<What> {
    let mut reader = Reader::fresh();
    let mut answers = Vec::new();
    for step in steps {
        if rng.chance(10) {
            call_with_bad_stems(&mut reader);
        }
        match step {
            Step::Bytes(bytes) => feed(&mut reader, bytes, rng, longest_piece, &mut answers),
            Step::End => {
                let told = reader.end(b"reg");
                assert_eq!(told.consumed, 0);
                answers.push(told.what);
            }
        }
    }
    answers
}

fn call_with_bad_stems(reader: &mut Reader) {
    let before = reader.clone();
    let refused = Told {
        consumed: 0,
        what: What::Refused(15, 0),
    };
    assert_eq!(reader.piece(b"a b", b"BEGIN:VCARD\n"), refused);
    assert_eq!(reader.end(b""), refused);
    assert_eq!(*reader, before);
}

fn feed(
    reader: &mut Reader,
    mut bytes: &[u8],
    rng: &mut Rng,
    longest_piece: usize,
    answers: &mut Vec<What>,
) {
    while !bytes.is_empty() {
        let length = bytes.len().min(1 + rng.below(longest_piece));
        let told = reader.piece(b"reg", &bytes[..length]);
        match told.what {
            What::More => assert_eq!(told.consumed, length),
            answer => {
                assert_eq!(bytes[told.consumed - 1], b'\n');
                answers.push(answer);
            }
        }
        bytes = &bytes[told.consumed..];
    }
}

#[test]
fn streams_answer_alike_however_they_are_cut() {
    let mut rng = Rng::new(0x5eed_0004);
    let mut tally = Tally::default();
    for round in 0..10_000 {
        let mut steps = generate::stream(&mut rng, 5_000);
        if round % 300 == 0 {
            steps.insert(0, Step::Bytes(generate::large_card(&mut rng)));
        }
        let whole = run_stream(&steps, &mut rng, usize::MAX);
        assert_eq!(whole, run_stream(&steps, &mut rng, 40), "{steps:?}");
        assert_eq!(whole, run_stream(&steps, &mut rng, 1), "{steps:?}");
        for answer in &whole {
            tally.count(match answer {
                What::Refused(number, _) => *number,
                _ => 0,
            });
        }
    }
    tally.assert_reached(0..=10);
}

/// Cards one after the other in a stream, with empty lines between them, are
/// answered as each by itself with its number.
#[test]
fn whole_cards_in_a_stream_are_answered_as_by_themselves() {
    let mut rng = Rng::new(0x5eed_0005);
    let mut reader = Reader::fresh();
    let mut number = 0;
    while number < 3_000 {
        let mut card = generate::card(&mut rng);
        if !card.ends_with(b"\n") {
            card.push(b'\n');
        }
        let alone = card_to_json(&card, b"reg", number + 1, JSON_BYTES);
        // 1 is another matter: a stream reads on where a card must end.
        if alone.number == 1 {
            continue;
        }
        number += 1;
        let what = match alone.number {
            0 => What::Json(alone.bytes),
            refusal => What::Refused(refusal, alone.place),
        };
        let consumed = card.len();
        let told = reader.piece(b"reg", &card);
        assert_eq!(told, Told { consumed, what }, "{}", show(&card));
        assert_eq!(reader.piece(b"reg", b"\r\n\n").what, What::More);
    }
}

/// The look-up gives a part of the input that is JSON by itself.
#[test]
fn a_member_found_is_a_part_of_the_input() {
    let mut rng = Rng::new(0x5eed_0006);
    let mut found = 0;
    for _ in 0..3_000 {
        let json = generate::json(&mut rng);
        let name = generate::member_name(&mut rng, &json);
        let part = look_up(&json, &name);
        if part.is_empty() {
            continue;
        }
        found += 1;
        assert_ne!(json_to_card(&json, CARD_BYTES).number, 11);
        assert!(json.as_ptr_range().contains(&part.as_ptr()));
        // As the only member of another object it is found again.
        let other = [br#"{"n":"#, part, b"}"].concat();
        assert_eq!(look_up(&other, b"n"), part, "{}", show(&json));
    }
    assert!(found > 1_000, "{found}");
}
