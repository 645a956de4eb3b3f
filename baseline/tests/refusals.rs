//! Every refusal number, its place, and the order in which they are sought.

mod common;
use common::*;
use thymebarrel_baseline::{card_to_json, json_to_card, Reader, Told, What};
use Gives::{Refusal, Something};

#[test]
fn refusals_of_a_card_with_their_places() {
    let cases = [
        ("V|FN:a", Something),
        ("V|FN:a|X:\u{1}", Refusal(4, 3)),
        ("V|FN:\u{7f}|X", Refusal(4, 2)),
        ("V|FN:a|X:\t", Something),
        ("V|X|FN:a", Refusal(5, 2)),
        ("V|FN:a|begin:x", Refusal(5, 3)),
        ("FN:a|V", Refusal(6, 0)),
        ("VERSION:3.0|FN:a", Refusal(6, 0)),
        ("version:4.0|FN:a", Something),
        ("VERSION;X=1:4.0|FN:a", Refusal(6, 0)),
        ("V|FN:a|g.UID:u", Refusal(7, 3)),
        ("V|FN:a|KIND;X=1:org", Refusal(7, 3)),
        ("V|FN:a|X;Group=g:v", Refusal(7, 3)),
        ("V|FN:a|X;VALUE=a,b:v", Refusal(7, 3)),
        ("V|FN:a|X;VALUE=\"a,b\":v", Refusal(7, 3)),
        ("V|FN:a|V", Refusal(8, 3)),
        ("V|FN:a|KIND:org|kind:org", Refusal(8, 4)),
        ("V|FN:a|UID:", Refusal(9, 3)),
        ("V|FN:a|KIND:", Refusal(9, 3)),
        ("V|FN:a|KIND:a_b", Refusal(9, 3)),
        ("V|UID:u", Refusal(10, 0)),
    ];
    for (body, gives) in &cases {
        assert_gives(&to_json(&card(body)), gives, rest_of_json, body);
    }
}

#[test]
fn each_is_sought_over_all_lines_before_the_next() {
    let cases = [
        // From the last offence to the first, adding one before it each time.
        ("V|UID:", Refusal(9, 2)),
        ("V|UID:|V", Refusal(8, 3)),
        ("V|UID:|V|X;GROUP=a:", Refusal(7, 4)),
        ("X:|UID:|V|X;GROUP=a:", Refusal(6, 0)),
        ("X:|UID:|V|X;GROUP=a:|X", Refusal(5, 5)),
        ("X:|UID:|V|X;GROUP=a:|X|Y:\u{1}", Refusal(4, 6)),
        ("X:|UID:|V|X;GROUP=a:|X|Y:\u{1}|END:VCARD", Refusal(1, 0)),
    ];
    for (body, gives) in &cases {
        assert_gives(&to_json(&card(body)), gives, rest_of_json, body);
    }
}

#[test]
fn one_card_is_begin_to_end() {
    let bad = [
        "BEGIN:VCARD\n",
        "END:VCARD\n",
        "BEGIN:VCARD\nVERSION:4.0\nFN:a\n",
        "VERSION:4.0\nFN:a\nEND:VCARD\n",
        "BEGIN:VCARD\nBEGIN:VCARD\nVERSION:4.0\nFN:a\nEND:VCARD\n",
        "BEGIN:VCARD\nVERSION:4.0\nFN:a\nEND:VCARD\nEND:VCARD\n",
        " BEGIN:VCARD\nVERSION:4.0\nFN:a\nEND:VCARD\n",
        "BEGIN:VCARD\nVERSION:4.0\nFN:a\nEND:VCARD\n x\n",
    ];
    for input in bad {
        let answer = to_json(input.as_bytes());
        assert_gives(&answer, &Refusal(1, 0), rest_of_json, input);
    }
}

#[rustfmt::skip]
const JSON: &[(&str, Gives)] = &[
    (r#"{..}"#, Something),
    (r#"{..}x"#, Refusal(11, 42)),
    (r#"{.. }"#, Refusal(11, 43)),
    (r#"{.."a":1,"a":1}"#, Refusal(11, 0)),
    (r#"{.."a":"\ud800"}"#, Refusal(11, 0)),
    (r#"{.."a":[1"#, Refusal(11, 48)),
    ("[]", Refusal(12, 0)),
    (r#"{.."emails":[]}"#, Refusal(12, 0)),
    (r#"{"@type":"Card","version":"1.0","uid":""}"#, Refusal(12, 0)),
    (r#"{"@type":"Card","version":"1.0"}"#, Refusal(12, 0)),
    (r#"{"@type":"Card","version":"2.0","uid":"u"}"#, Refusal(12, 0)),
    (r#"{"@type":"card","version":"1.0","uid":"u"}"#, Refusal(12, 0)),
    (r#"{"@type":"Card","version":1.0,"uid":"u"}"#, Refusal(12, 0)),
    (r#"{"@type":"Card","version":"1.0","uid":"a\nb"}"#, Refusal(13, 0)),
    (r#"{.."name":{"full":"a\rb"}}"#, Refusal(13, 0)),
    (r#"{.."name":{"full":"a\nb\t"}}"#, Something),
    // 12 anywhere goes before 13 anywhere.
    (r#"{.."name":{"full":"a\rb"},"titles":[]}"#, Refusal(12, 0)),
];

#[test]
fn refusals_of_json_with_their_places() {
    for (text, gives) in JSON {
        assert_gives(&to_card(&json(text)), gives, rest_of_card, text);
    }
}

#[test]
fn an_output_one_byte_short_is_14() {
    let card = card("V|FN:a");
    let length = to_json(&card).bytes.len();
    assert_eq!(card_to_json(&card, b"reg", 1, length).number, 0);
    let answer = card_to_json(&card, b"reg", 1, length - 1);
    assert_gives(&answer, &Refusal(14, 0), rest_of_json, "card");
    let json = json("{..}");
    let length = to_card(&json).bytes.len();
    assert_eq!(json_to_card(&json, length).number, 0);
    let answer = json_to_card(&json, length - 1);
    assert_gives(&answer, &Refusal(14, 0), rest_of_card, "json");
}

#[test]
fn the_stem_and_the_number_come_first() {
    let longest = [b'a'; 200];
    let too_long = [b'a'; 201];
    let cases: &[(&[u8], u64, u32)] = &[
        (b"a:-_Z9", 1, 1),
        (&longest, 999_999, 1),
        (&too_long, 1, 15),
        (b"", 1, 15),
        (b"a b", 1, 15),
        ("é".as_bytes(), 1, 15),
        (b"a", 0, 15),
        (b"a", 1_000_000, 15),
    ];
    for (stem, number, refusal) in cases {
        assert_eq!(card_to_json(b"", stem, *number, 0).number, *refusal);
    }
    let too_large = vec![b'a'; 40_000];
    assert_eq!(card_to_json(&too_large, b"", 1, 0).number, 15);
    assert_eq!(card_to_json(&too_large, b"a", 1, 0).number, 3);
}

fn told(consumed: usize, what: What) -> Told {
    Told { consumed, what }
}

#[test]
fn refusals_of_a_stream() {
    let mut reader = Reader::fresh();
    assert_eq!(reader.piece(b"", b"junk\n"), told(0, What::Refused(15, 0)));
    assert_eq!(reader.end(b"a b"), told(0, What::Refused(15, 0)));
    assert_eq!(reader, Reader::fresh());
    assert_eq!(
        reader.piece(b"a", b"junk\nmore"),
        told(5, What::Refused(1, 0))
    );
    assert_eq!(reader.piece(b"a", b"\n\r\n"), told(3, What::More));
    let open = b"BEGIN:VCARD\nX\nbegin:vcard\nX\nEND:VCARD\n";
    assert_eq!(reader.piece(b"a", open), told(26, What::Refused(2, 0)));
    assert_eq!(
        reader.piece(b"a", &open[26..]),
        told(12, What::Refused(5, 1))
    );
    assert_eq!(reader.piece(b"a", b"BEGIN:VCARD\nX"), told(13, What::More));
    assert_eq!(reader.end(b"a"), told(0, What::Refused(2, 0)));
    assert_eq!(reader, Reader::fresh());
}
