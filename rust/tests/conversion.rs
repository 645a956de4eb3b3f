//! The functions of the crate over the sample cards. That they are right for every
//! input is proved; this shows that they are wired to the proved ones.

mod common;
use common::*;
use thymebarrel::*;

#[test]
fn the_samples_convert() {
    for name in SAMPLES {
        let json = card_to_json(b"reg", 1, sample(&format!("{name}.vcf"))).expect(name);
        let want = sample(&format!("{name}.json"));
        assert_eq!(json + "\n", text(&want), "{name}");
    }
}

#[test]
fn the_others_are_refused() {
    for (name, number, place) in REFUSED {
        let refusal = card_to_json(b"reg", 1, sample(name)).expect_err(name);
        assert_eq!(refusal, Refusal { number, place }, "{name}");
        assert_eq!(refusal.reason().map(Reason::number), Some(number));
    }
}

/// A card that came home gives the same JSON, and comes home as it is.
#[test]
fn the_samples_come_home() {
    for name in SAMPLES {
        let json = card_to_json(b"reg", 1, sample(&format!("{name}.vcf"))).expect(name);
        let home = json_to_card(&json).expect(name);
        assert_eq!(home, text(&sample(&format!("home/{name}.vcf"))), "{name}");
        assert_eq!(card_to_json(b"other", 2, &home), Ok(json), "{name}");
    }
}

#[test]
fn other_json_is_refused() {
    for (name, number, place) in REFUSED_JSON {
        let refusal = json_to_card(sample(name)).expect_err(name);
        assert_eq!(refusal, Refusal { number, place }, "{name}");
    }
    let json = sample("ada.json");
    let mut out = [0xA5; 40];
    let short = Err(Refusal {
        number: 14,
        place: 0,
    });
    assert_eq!(json_to_card_into(&json, &mut out), short);
    assert_eq!(out, [0xA5; 40]);
    let over = [&json[..], &vec![b' '; JSON_BYTES]].concat();
    assert_eq!(
        json_to_card(&over),
        Err(Refusal {
            number: 3,
            place: 0
        })
    );
}

#[test]
fn stem_and_number_make_the_uid() {
    let json = card_to_json(b"shop-7", 999_999, sample("ada.vcf")).expect("it converts");
    assert_eq!(member(&json, "uid"), Some("\"shop-7-999999\""));
    let bad = |stem: &[u8], number| card_to_json(stem, number, sample("ada.vcf"));
    let refusal = Refusal {
        number: 15,
        place: 0,
    };
    assert_eq!(bad(b"", 1), Err(refusal));
    assert_eq!(bad(b"a b", 1), Err(refusal));
    assert_eq!(bad(b"reg", 0), Err(refusal));
    assert_eq!(bad(b"reg", 1_000_000), Err(refusal));
    assert_eq!(bad(&[b'a'; 201], 1), Err(refusal));
    assert!(bad(&[b'a'; 200], 1).is_ok());
}

#[test]
fn a_refused_call_leaves_the_output_as_it_was() {
    let card = sample("ada.vcf");
    let length = card_to_json(b"reg", 1, &card).expect("it converts").len();
    let mut out = vec![0xA5; length - 1];
    let refusal = Refusal {
        number: 14,
        place: 0,
    };
    assert_eq!(card_to_json_into(b"reg", 1, &card, &mut out), Err(refusal));
    assert!(out.iter().all(|b| *b == 0xA5));
    assert_eq!(card_to_json_into(b"reg", 1, &card, &mut []), Err(refusal));
    let mut out = vec![0xA5; length + 9];
    assert_eq!(card_to_json_into(b"reg", 1, &card, &mut out), Ok(length));
    assert!(out[length..].iter().all(|b| *b == 0xA5));
}

#[test]
fn the_room_of_a_card() {
    let card = |bytes: usize| {
        let start = "BEGIN:VCARD\nVERSION:4.0\nFN:a\nNOTE:";
        let end = "\nEND:VCARD\n";
        let fill = "x".repeat(bytes - start.len() - end.len());
        format!("{start}{fill}{end}").into_bytes()
    };
    assert!(card_to_json(b"reg", 1, card(CARD_BYTES)).is_ok());
    let refusal = Refusal {
        number: 3,
        place: 0,
    };
    assert_eq!(card_to_json(b"reg", 1, card(CARD_BYTES + 1)), Err(refusal));
}

#[test]
fn a_member_is_that_part_of_the_json() {
    let json = br#" {"a": [1, 2], "b\u0063": null, "": 0} "#;
    let part = member(json, "a").expect("it is there");
    assert_eq!(part, "[1, 2]");
    assert_eq!(part.as_ptr(), json[7..].as_ptr());
    assert_eq!(member(json, "bc"), Some("null"));
    assert_eq!(member(json, b""), Some("0"));
    for (json, name) in [
        ("{}", "a"),
        ("[1]", "a"),
        ("{\"a\":1,}", "a"),
        ("", ""),
        ("{\"a\":1,\"a\":1}", "a"),
    ] {
        assert_eq!(member(json, name), None, "{json}");
    }
}

#[test]
fn every_reason_has_its_words() {
    for (k, reason) in Reason::ALL.iter().copied().enumerate() {
        assert_eq!(usize::from(reason.number()), k + 1);
        assert_eq!(Reason::of(reason.number()), Some(reason));
        assert!(reason.meaning().ends_with('.') && reason.advice().ends_with('.'));
    }
    assert_eq!((Reason::of(0), Reason::of(17)), (None, None));
}

/// A result keeps what it needs, not the room of the greatest.
#[test]
fn a_result_takes_its_own_size() {
    let json = card_to_json("reg", 1, sample("ada.vcf")).expect("it converts");
    assert!(json.capacity() < 2 * json.len(), "{}", json.capacity());
    let card = json_to_card(&json).expect("it converts");
    assert!(card.capacity() < 2 * card.len(), "{}", card.capacity());
    let card = sample("ada.vcf");
    let mut cards = Cards::new("reg", &card[..]);
    let answer = cards.next().expect("an answer").expect("read");
    let json = answer.result.expect("it converts");
    assert!(json.capacity() < 2 * json.len(), "{}", json.capacity());
}
