//! The inputs of docs/DECISIONS.md, by the number of the point, with the answer of
//! the reading that is chosen there.

mod common;
use common::*;
use thymebarrel_baseline::{look_up, Reader, What};
use Gives::{Refusal, Result, Something};

/// The point, the input in short, and what it gives.
type Row = (u32, &'static str, Gives);

#[rustfmt::skip]
const CARDS: &[Row] = &[
    (3, "V|FN:a|X:a\r\r| ", Refusal(4, 3)),
    (4, "| VERSION:4.0|FN:a", Result(r#""name":{"full":"a"}}"#)),
    (8, "V|FN:a|é:v", Refusal(5, 3)),
    (8, "V|FN:a|KIND:é", Refusal(9, 3)),
    (9, "V|FN:a|a.VERSION:4.0", Refusal(8, 3)),
    (10, "V|FN:a|EMAIL;PREF=1;PREF=1:b", Result(r#""name":{"full":"a"},"vCardProps":[["email",{"pref":["1","1"]},"unknown","b"]]}"#)),
    (11, "V|FN:a|EMAIL;TYPE=:b", Result(r#""name":{"full":"a"},"vCardProps":[["email",{"type":""},"unknown","b"]]}"#)),
    (11, "V|FN:a|EMAIL;TYPE=\"home,\":b", Result(r#""name":{"full":"a"},"vCardProps":[["email",{"type":"home,"},"unknown","b"]]}"#)),
    (12, "V|FN:a|FN;DERIVED=TRUE:\\x", Result(r#""name":{"full":"a"}}"#)),
    (12, "V|FN:a|FN;DERIVED=TRUE,TRUE:b", Result(r#""name":{"full":"a"},"vCardProps":[["fn",{"derived":["TRUE","TRUE"]},"unknown","b"]]}"#)),
    (12, "V|FN:a|FN;DERIVED=TRUE;DERIVED=TRUE:b", Result(r#""name":{"full":"a"},"vCardProps":[["fn",{"derived":["TRUE","TRUE"]},"unknown","b"]]}"#)),
    (12, "V|FN:a|FN;DERIVED=TRUE;VALUE=unknown:b", Result(r#""name":{"full":"a"}}"#)),
    (13, "V|FN:a|TEL;VALUE=uri:TEL:1", Result(r#""name":{"full":"a"},"vCardProps":[["tel",{},"uri","TEL:1"]]}"#)),
    (14, "V|FN:a|JSPROP;JSPTR=\"a\":[|JSPROP;JSPTR=\"a\":1", Result(r#""name":{"full":"a"},"a":1,"vCardProps":[["jsprop",{"jsptr":"a"},"unknown","["]]}"#)),
    (15, "V|FN:a|JSPROP;JSPTR=\"/a\":1", Result(r#""name":{"full":"a"},"vCardProps":[["jsprop",{"jsptr":"/a"},"unknown","1"]]}"#)),
    (17, "V|FN:a|JSPROP;JSPTR=\"a\":\"\\\\u0041\"", Result(r#""name":{"full":"a"},"a":"A"}"#)),
    (33, "V|a.FN:b", Result(r#""vCardProps":[["fn",{"group":"a"},"unknown","b"]]}"#)),
    (33, "V|FN;X=1:b", Result(r#""vCardProps":[["fn",{"x":"1"},"unknown","b"]]}"#)),
    (33, "V|FN;DERIVED=TRUE:", Something),
    (34, "V|FN:a|EMAIL;TYPE=\"a,b\":c", Result(r#""name":{"full":"a"},"vCardProps":[["email",{"type":"a,b"},"unknown","c"]]}"#)),
    (35, "V|FN:a|ORG:;D", Result(r#""name":{"full":"a"},"organizations":{"ORG-1":{"units":[{"name":"D"}]}}}"#)),
    (36, "V|FN:a|ORG:A;B", Result(r#""name":{"full":"a"},"organizations":{"ORG-1":{"name":"A","units":[{"name":"B"}]}}}"#)),
    (37, "V|FN:a|JSPROP;JSPTR=\"a\":null", Result(r#""name":{"full":"a"},"a":null}"#)),
];

#[test]
fn cards() {
    for (point, body, gives) in CARDS {
        assert_gives(
            &to_json(&card(body)),
            gives,
            rest_of_json,
            &format!("point {point}: {body}"),
        );
    }
}

fn number_and_place(input: &[u8]) -> (u32, usize) {
    let answer = to_json(input);
    (answer.number, answer.place)
}

/// A card of so many bytes, the supposed LF not counted.
fn card_of(bytes: usize) -> Vec<u8> {
    let (head, tail) = ("BEGIN:VCARD\nVERSION:4.0\nFN:", "\nEND:VCARD");
    let value = "a".repeat(bytes - head.len() - tail.len());
    format!("{head}{value}{tail}").into_bytes()
}

#[test]
fn the_frame_and_the_room() {
    assert_eq!(number_and_place(&card_of(32_768)), (3, 0), "point 1");
    assert_eq!(number_and_place(&card_of(32_767)), (0, 0), "point 1");
    let last_cr = b"BEGIN:VCARD\nVERSION:4.0\nFN:a\nEND:VCARD\r";
    assert_eq!(number_and_place(last_cr), (0, 0), "point 2");
    let empty_after = b"BEGIN:VCARD\nVERSION:4.0\nFN:a\nEND:VCARD\n\n";
    assert_eq!(number_and_place(empty_after), (1, 0), "point 5");
    let mut long = card_of(32_768);
    long.push(b'\n');
    assert_eq!(number_and_place(&long), (3, 0), "point 6");
    let of_lines = |others: usize| card(&format!("V|FN:a{}", "|X:".repeat(others)));
    assert_eq!(number_and_place(&of_lines(510)), (0, 0), "point 6");
    assert_eq!(number_and_place(&of_lines(511)), (3, 0), "point 6");
    let values = vec!["v"; 40].join(",");
    let over = card(&format!("V|FN:a|X;A={values};B={values}:"));
    assert_eq!(number_and_place(&over), (5, 3), "point 7");
}

#[rustfmt::skip]
const TEXTS: &[Row] = &[
    (16, r#"{.."a":[[[[[[[[[[[[[[[1]]]]]]]]]]]]]]]}"#, Result("FN;DERIVED=TRUE:|JSPROP;JSPTR=\"a\":[[[[[[[[[[[[[[[1]]]]]]]]]]]]]]]")),
    (16, "[[[[[[[[[[[[[[[[1]]]]]]]]]]]]]]]]", Refusal(12, 0)),
    (18, r#"{"a":1,"a":2,}"#, Refusal(11, 13)),
    (20, r#"{.."name":{}}"#, Refusal(12, 0)),
    (20, r#"{.."name":{"components":[]}}"#, Result("FN;DERIVED=TRUE:")),
    (21, r#"{.."vCardProps":[["note",{},"unknown","a\nb"]]}"#, Refusal(12, 0)),
    (21, r#"{.."vCardProps":[["jsprop",{"jsptr":"a"},"unknown","\"\u007f\""]]}"#, Refusal(12, 0)),
    (21, r#"{.."vCardProps":[["jsprop",{"jsptr":"a"},"unknown","\"\u0001\""]]}"#, Refusal(13, 0)),
    (24, r#"{.."vCardProps":[["x",{"group":["a"]},"unknown",""]]}"#, Result("FN;DERIVED=TRUE:|a.X:")),
    (25, r#"{.."organizations":{"k":{"name":"a","units":[]}}}"#, Result("FN;DERIVED=TRUE:|ORG;PROP-ID=k:a")),
    (25, r#"{.."phones":{"k":{"number":"1","contexts":{},"features":{}}}}"#, Result("FN;DERIVED=TRUE:|TEL;PROP-ID=k:1")),
    (26, r#"{.."notes":{"n":{"note":"b"}},"emails":{"e":{"address":"a"}}}"#, Result("FN;DERIVED=TRUE:|EMAIL;PROP-ID=e:a|NOTE;PROP-ID=n:b")),
    (27, r#"{.."name":{"components":[{"kind":"given","value":"Jane"},{"kind":"surname","value":"Doe"}]}}"#, Result("FN;DERIVED=TRUE:Doe Jane|N:Doe;Jane;;;;;")),
    (38, r#"{.."name":{"full":""}}"#, Result("FN:")),
    (38, r#"{.."nicknames":{"k":{"name":""}},"notes":{"k":{"note":""}},"titles":{"k":{"name":""}}}"#, Result("FN;DERIVED=TRUE:|NICKNAME;PROP-ID=k:|NOTE;PROP-ID=k:|TITLE;PROP-ID=k:")),
    (39, r#"{.."vCardProps":[["x",{"p":[]},"unknown",""]]}"#, Refusal(12, 0)),
    (39, r#"{.."vCardProps":[["x",{"p":""},"unknown",""],["x",{"p":[""]},"unknown",""]]}"#, Result("FN;DERIVED=TRUE:|X;P=:|X;P=:")),
    (40, r#"{.."name":{"full":"b"},"vCardProps":[["fn",{},"unknown","a"]]}"#, Result("FN:b|FN:a")),
    (40, r#"{.."vCardProps":[["fn",{},"unknown","a"]],"name":{"full":"b"}}"#, Result("FN:b|FN:a")),
    (40, r#"{.."vCardProps":[["fn",{},"unknown","a"]]}"#, Refusal(12, 0)),
    (41, r#"{.."vCardProps":[["uid",{},"unknown","x"]]}"#, Refusal(12, 0)),
    (41, r#"{.."vCardProps":[["x",{"value":"uri"},"unknown","x"]]}"#, Refusal(12, 0)),
    (41, r#"{.."vCardProps":[["X",{},"unknown","x"]]}"#, Refusal(12, 0)),
    (42, r#"{.."name":{"full":"a","components":[{"kind":"credential","value":""},{"kind":"generation","value":""}]}}"#, Result("FN:a")),
    (42, r#"{.."name":{"full":"a","components":[{"kind":"credential","value":"b"},{"kind":"generation","value":"b"}]}}"#, Refusal(13, 0)),
    (43, "{..}", Result("FN;DERIVED=TRUE:")),
];

#[test]
fn texts() {
    for (point, text, gives) in TEXTS {
        assert_gives(
            &to_card(&json(text)),
            gives,
            rest_of_card,
            &format!("point {point}: {text}"),
        );
    }
    let values = vec![r#""v""#; 65].join(",");
    let entry = format!(r#"{{.."vCardProps":[["x",{{"p":[{values}]}},"unknown",""]]}}"#);
    assert_eq!(to_card(&json(&entry)).number, 12, "point 22");
    let long = json(&format!(r#"{{.."kind":"{}"}}"#, "a".repeat(40_000)));
    assert_eq!(to_card(&long).number, 3, "point 23");
    assert_eq!(look_up(&long, b"uid"), b"\"u\"", "point 19");
    assert_eq!(look_up(br#"{"" : 1 }"#, b""), b"1", "point 19");
    assert_eq!(look_up(b"[1]", b""), b"", "point 19");
}

/// The card's body, and that of the card that comes home, without its UID.
#[rustfmt::skip]
const HOMES: &[(u32, &str, &str)] = &[
    (27, "V|FN;DERIVED=TRUE:|N:a\\,b", "FN;DERIVED=TRUE:a\\,b|N:a\\,b;;;;;;"),
    (28, "V|FN:a|TEL;TYPE=CELL;TYPE=\"work,home\";TYPE=cell:1", "FN:a|TEL;PROP-ID=PHONE-1;TYPE=home,work,cell:1"),
    (29, "V|FN:a|X;JSPTR=a:1", "FN:a|X;JSPTR=\"a\":1"),
    (35, "V|FN:a|ORG:;D", "FN:a|ORG;PROP-ID=ORG-1:;D"),
    (44, "V|FN:a|a.TEL:tel:1", "FN:a|a.TEL:tel:1"),
];

#[test]
fn homes() {
    for (point, body, home) in HOMES {
        let there = to_json(&card(body));
        assert_eq!(
            rest_of_card(&to_card(&there.bytes).bytes),
            *home,
            "point {point}: {body}"
        );
    }
    let text = json(
        r#"{.."name":{"components":[{"kind":"given","value":"Jane"},{"kind":"surname","value":"Doe"}]}}"#,
    );
    let back = show(&to_json(&to_card(&text).bytes).bytes);
    let ordered =
        r#""components":[{"kind":"surname","value":"Doe"},{"kind":"given","value":"Jane"}]"#;
    assert!(back.contains(ordered), "point 45");
}

const CARD: &[u8] = b"BEGIN:VCARD\nVERSION:4.0\nFN:a\nEND:VCARD\n";

fn uid_of(what: &What) -> String {
    match what {
        What::Json(json) => show(look_up(json, b"uid")),
        other => format!("{other:?}"),
    }
}

#[test]
fn streams() {
    let mut reader = Reader::fresh();
    assert_eq!(uid_of(&reader.piece(b"reg", CARD).what), r#""reg-1""#);
    assert_eq!(
        uid_of(&reader.piece(b"reg", CARD).what),
        r#""reg-2""#,
        "point 30"
    );
    assert_eq!(reader.end(b"reg").what, What::More);
    assert_eq!(
        uid_of(&reader.piece(b"reg", CARD).what),
        r#""reg-1""#,
        "point 30"
    );

    let mut reader = Reader::fresh();
    assert_eq!(reader.piece(b"reg", b"BEGIN:VCARD\r\n").what, What::More);
    assert_eq!(reader.piece(b"reg", b"BEGIN:VCARD").what, What::More);
    assert_eq!(reader.end(b"reg").what, What::Refused(2, 0), "point 31");
    let rest = reader.piece(b"reg", b"VERSION:4.0\nFN:a\nEND:VCARD\n");
    assert_eq!(uid_of(&rest.what), r#""reg-2""#, "point 31");

    let mut reader = Reader::fresh();
    let (open, close) = CARD.split_at(CARD.len() - "END:VCARD\n".len());
    assert_eq!(reader.piece(b"a", open).what, What::More);
    assert_eq!(
        uid_of(&reader.piece(b"b", close).what),
        r#""b-1""#,
        "point 46"
    );

    let mut reader = Reader::after(999_998);
    assert_eq!(
        uid_of(&reader.piece(b"a", CARD).what),
        r#""a-999999""#,
        "point 47"
    );
    assert_eq!(
        reader.piece(b"a", CARD).what,
        What::Refused(3, 0),
        "point 47"
    );
}
