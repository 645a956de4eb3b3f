//! Points where the rules (docs/RULES.md) can be read in two ways, by a number of
//! their own, with the inputs that tell the readings apart. docs/DECISIONS.md says
//! why the open ones are read so.

mod common;
use common::*;
use thymebarrel_baseline::{look_up, Reader, What};
use Gives::{Refusal, Result, Something};

/// The number of the reading, the input in short, and what it gives.
type Row = (u32, &'static str, Gives);

fn check_cards(rows: &[Row]) {
    for (reading, body, gives) in rows {
        let what = format!("reading {reading}: {body}");
        assert_gives(&to_json(&card(body)), gives, rest_of_json, &what);
    }
}

fn check_json(rows: &[Row]) {
    for (reading, text, gives) in rows {
        let what = format!("reading {reading}: {text}");
        assert_gives(&to_card(&json(text)), gives, rest_of_card, &what);
    }
}

/// The card's body, and that of the card that comes home, without its UID.
fn check_homes(rows: &[(u32, &str, &str)]) {
    for (reading, body, home) in rows {
        let what = format!("reading {reading}: {body}");
        let json = to_json(&card(body));
        assert_eq!(json.number, 0, "{what}");
        assert_eq!(rest_of_card(&to_card(&json.bytes).bytes), *home, "{what}");
    }
}

fn whole(input: &str) -> (u32, usize) {
    let answer = to_json(input.as_bytes());
    (answer.number, answer.place)
}

#[rustfmt::skip]
const LINES: &[Row] = &[
    (2, "V|FN:a|X:a\r\r| ", Refusal(4, 3)),
    (3, " VERSION:4.0|FN:a", Refusal(5, 1)),
    (3, "| VERSION:4.0|FN:a", Something),
    (4, "V|FN:a|", Refusal(5, 3)),
    (6, "V|FN:a|BEG| IN:VCARD", Refusal(5, 3)),
    (6, "V|FN:a|END:VCARD ", Refusal(5, 3)),
    (6, "V|FN:a|a.end:x", Refusal(5, 3)),
    (6, "V|FN:a|BEGIN;X=1:VCARD", Refusal(5, 3)),
    (9, "V|FN:a|X;P==\\ \t:|X;P=:", Something),
    (9, "V|FN:a|X;P=\"a\"b:", Refusal(5, 3)),
    (9, "V|FN:a|X;P=a\"b:", Refusal(5, 3)),
    (9, "V|FN:a|TEL;HOME:1", Refusal(5, 3)),
    (10, "V|FN:\u{80}\u{9f}\u{2028}\u{fffe}\u{feff}", Something),
    (11, "VERS| ION:4.0|FN:a", Something),
    (11, "V|X:", Refusal(10, 0)),
    (12, "X|V|FN:a", Refusal(5, 1)),
    (12, "X:\u{1}|V|FN:a", Refusal(4, 1)),
];

#[test]
fn a_lines_bytes_unfolding() {
    check_cards(LINES);
    let body = "BEGIN:VCARD\nVERSION:4.0\nFN:a\nEND:VCARD\n";
    assert_eq!(whole(&format!("{body}\n")), (1, 0), "reading 5");
    assert_eq!(whole(&format!("\n{body}")), (1, 0), "reading 5");
    assert_eq!(whole(&format!("{body} x\n")), (1, 0), "reading 6");
    assert_eq!(whole(&format!("\u{feff}{body}")), (1, 0), "reading 10");
    assert_eq!(whole("BEGIN:VCARD\nEND:VCARD\n"), (6, 0), "reading 11");
    let stream = format!("\n{body}\n");
    let told = Reader::fresh().piece(b"a", stream.as_bytes());
    assert!(matches!(told.what, What::Json(_)), "reading 5");
    let bom = to_card("\u{feff}{}".as_bytes());
    assert_eq!((bom.number, bom.place), (11, 0), "reading 10");
}

#[test]
fn a8_counts_are_over_the_line() {
    let values = |count: usize| vec!["v"; count].join(",");
    let line = |a, b| format!("V|FN:a|X;A={};A={}:", values(a), values(b));
    assert_eq!(to_json(&card(&line(40, 24))).number, 0);
    let over = to_json(&card(&line(40, 25)));
    assert_eq!((over.number, over.place), (5, 3));
    let quoted = format!("V|FN:a|X;A=\"{}\":", values(100));
    assert_eq!(to_json(&card(&quoted)).number, 0);
}

#[rustfmt::skip]
const REFUSALS_7_TO_10: &[Row] = &[
    (13, "V|FN:a|UID;VALUE=uri:u", Something),
    (13, "V|FN:a|uid;value=\"URI\":u", Something),
    (13, "V|FN:a|UID;VALUE=text:u", Refusal(7, 3)),
    (13, "V|FN:a|UID;VALUE=unknown:u", Refusal(7, 3)),
    (13, "V|FN:a|UID;VALUE=uri;VALUE=uri:u", Refusal(7, 3)),
    (13, "V|FN:a|UID;VALUE=uri,uri:u", Refusal(7, 3)),
    (13, "V|FN:a|KIND;VALUE=uri:org", Refusal(7, 3)),
    (13, "V|FN:a|X;VALUE=:", Refusal(7, 3)),
    (13, "V|FN:a|X;group=a:", Refusal(7, 3)),
    (14, "V|FN:a|a.VERSION:4.0", Refusal(8, 3)),
    (14, "V|FN:a|VERSION;X=1:9", Refusal(8, 3)),
    (15, "V|FN:a|KIND:a\\,b", Refusal(9, 3)),
    (15, "V|FN:a|UID: ", Result(r#" ","name":{"full":"a"}}"#)),
    (16, "V|FN;DERIVED=TRUE:", Something),
    (16, "V|a.FN:b", Something),
    (73, "V|FN:a|X;VALUE=\"a,b\":", Refusal(7, 3)),
];

#[test]
fn b_refusals_7_to_10() {
    check_cards(REFUSALS_7_TO_10);
}

#[rustfmt::skip]
const CONVERTED: &[Row] = &[
    (17, "V|FN:a|EMAIL;TYPE=x:b", Result(r#""name":{"full":"a"},"vCardProps":[["email",{"type":"x"},"unknown","b"]]}"#)),
    (17, "V|FN:a|EMAIL;VALUE=text:b", Result(r#""name":{"full":"a"},"vCardProps":[["email",{},"text","b"]]}"#)),
    (17, "V|FN:a|JSPROP;JSPTR=b;VALUE=TEXT:1", Result(r#""name":{"full":"a"},"vCardProps":[["jsprop",{"jsptr":"b"},"text","1"]]}"#)),
    (17, "V|FN:a|TEL;TYPE=mobile:1", Result(r#""name":{"full":"a"},"vCardProps":[["tel",{"type":"mobile"},"unknown","1"]]}"#)),
    (18, "V|FN:a|EMAIL;PREF=1;PREF=1:b", Result(r#""name":{"full":"a"},"vCardProps":[["email",{"pref":["1","1"]},"unknown","b"]]}"#)),
    (19, "V|FN:a|EMAIL;TYPE=:b", Result(r#""name":{"full":"a"},"vCardProps":[["email",{"type":""},"unknown","b"]]}"#)),
    (19, "V|FN:a|EMAIL;TYPE=\"home,\":b", Result(r#""name":{"full":"a"},"vCardProps":[["email",{"type":"home,"},"unknown","b"]]}"#)),
    (19, "V|FN:a|EMAIL;TYPE=\"home, work\":b", Result(r#""name":{"full":"a"},"vCardProps":[["email",{"type":"home, work"},"unknown","b"]]}"#)),
    (19, "V|FN:a|EMAIL;TYPE=\"home,work\":b", Result(r#""name":{"full":"a"},"emails":{"EMAIL-1":{"address":"b","contexts":{"private":true,"work":true}}}}"#)),
    (20, "V|FN;DERIVED=TRUE;VALUE=unknown:b|FN:a", Result(r#""name":{"full":"a"}}"#)),
    (20, "V|FN;DERIVED=TRUE:\\x|FN:a|FN;derived=\"true\":c", Result(r#""name":{"full":"a"}}"#)),
    (20, "V|FN:a|FN;DERIVED=TRUE,TRUE:b", Result(r#""name":{"full":"a"},"vCardProps":[["fn",{"derived":["TRUE","TRUE"]},"unknown","b"]]}"#)),
    (20, "V|FN:a|FN;DERIVED=TRUE;DERIVED=TRUE:b", Result(r#""name":{"full":"a"},"vCardProps":[["fn",{"derived":["TRUE","TRUE"]},"unknown","b"]]}"#)),
    (21, "V|FN:a|EMAIL:a|EMAIL;PROP-ID=EMAIL-1:b", Result(r#""name":{"full":"a"},"emails":{"EMAIL-2":{"address":"a"},"EMAIL-1":{"address":"b"}}}"#)),
    (21, "V|FN:a|EMAIL;PROP-ID=EMAIL-1;X=1:a|EMAIL:b", Result(r#""name":{"full":"a"},"emails":{"EMAIL-1":{"address":"b"}},"vCardProps":[["email",{"prop-id":"EMAIL-1","x":"1"},"unknown","a"]]}"#)),
    (21, "V|FN:a|ROLE;PROP-ID=TITLE-1:r|TITLE:t", Result(r#""name":{"full":"a"},"titles":{"TITLE-1":{"kind":"role","name":"r"},"TITLE-2":{"kind":"title","name":"t"}}}"#)),
    (22, "V|FN:a|TEL;VALUE=uri:TEL:1", Result(r#""name":{"full":"a"},"vCardProps":[["tel",{},"uri","TEL:1"]]}"#)),
    (23, "V|FN:a|N:a;;;;;;;", Result(r#""name":{"full":"a"},"vCardProps":[["n",{},"unknown","a;;;;;;;"]]}"#)),
    (24, "V|FN:a|N:Foo,Foo;;;;;Foo", Result(r#""name":{"full":"a","components":[{"kind":"surname2","value":"Foo"}]}}"#)),
    (24, "V|FN:a|N:Foo,Foo", Result(r#""name":{"full":"a","components":[{"kind":"surname","value":"Foo"},{"kind":"surname","value":"Foo"}]}}"#)),
    (24, "V|FN:a|N:a\\,b;;;;J\\n;a\\,b;J\\N", Result(r#""name":{"full":"a","components":[{"kind":"surname2","value":"a,b"},{"kind":"generation","value":"J\n"}]}}"#)),
    (25, "V|g.FN:b|FN:", Result(r#""name":{"full":""},"vCardProps":[["fn",{"group":"g"},"unknown","b"]]}"#)),
    (26, "V|FN:a|ORG:;D", Result(r#""name":{"full":"a"},"organizations":{"ORG-1":{"units":[{"name":"D"}]}}}"#)),
    (26, "V|FN:a|ORG:;;", Result(r#""name":{"full":"a"},"vCardProps":[["org",{},"unknown",";;"]]}"#)),
];

#[test]
fn c_which_lines_convert() {
    check_cards(CONVERTED);
}

#[rustfmt::skip]
const JSPROP_AND_KEPT: &[Row] = &[
    (28, "V|FN:a|JSPROP;JSPTR=\"/a\":1", Result(r#""name":{"full":"a"},"vCardProps":[["jsprop",{"jsptr":"/a"},"unknown","1"]]}"#)),
    (28, "V|FN:a|JSPROP;JSPTR=~2:1", Result(r#""name":{"full":"a"},"vCardProps":[["jsprop",{"jsptr":"~2"},"unknown","1"]]}"#)),
    (29, "V|FN:a|JSPROP;JSPTR=\"a\":[|JSPROP;JSPTR=\"a\":1", Result(r#""name":{"full":"a"},"a":1,"vCardProps":[["jsprop",{"jsptr":"a"},"unknown","["]]}"#)),
    (30, "V|FN:a|JSPROP;JSPTR=b: [1\\n\\,2] ", Result(r#""name":{"full":"a"},"b":[1,2]}"#)),
    (30, "V|FN:a|JSPROP;JSPTR=b:{\"a\":1,\"a\":2}", Result(r#""name":{"full":"a"},"vCardProps":[["jsprop",{"jsptr":"b"},"unknown","{\"a\":1,\"a\":2}"]]}"#)),
    (30, "V|FN:a|JSPROP;JSPTR=b:\"\\\\ud800\"", Result(r#""name":{"full":"a"},"vCardProps":[["jsprop",{"jsptr":"b"},"unknown","\"\\\\ud800\""]]}"#)),
    (30, "V|FN:a|JSPROP;JSPTR=b:[[[[[[[[[[[[[[[1]]]]]]]]]]]]]]]", Result(r#""name":{"full":"a"},"b":[[[[[[[[[[[[[[[1]]]]]]]]]]]]]]]}"#)),
    (30, "V|FN:a|JSPROP;JSPTR=b:[[[[[[[[[[[[[[[[1]]]]]]]]]]]]]]]]", Result(r#""name":{"full":"a"},"vCardProps":[["jsprop",{"jsptr":"b"},"unknown","[[[[[[[[[[[[[[[[1]]]]]]]]]]]]]]]]"]]}"#)),
    (32, "V|FN:a|JSPROP;JSPTR=b:[\"\\\\u0041\\\\/\",1.50E+2]", Result(r#""name":{"full":"a"},"b":["A/",1.50E+2]}"#)),
    (33, "V|FN:a|X;A=1;B=2;a=3:", Result(r#""name":{"full":"a"},"vCardProps":[["x",{"a":["1","3"],"b":"2"},"unknown",""]]}"#)),
    (34, "V|FN:a|NICKNAME:a\\\\,b", Result(r#""name":{"full":"a"},"vCardProps":[["nickname",{},"unknown","a\\\\,b"]]}"#)),
    (34, "V|FN:a|NOTE:\\:", Result(r#""name":{"full":"a"},"vCardProps":[["note",{},"unknown","\\:"]]}"#)),
    (34, "V|FN:a|ORG:b,c", Result(r#""name":{"full":"a"},"organizations":{"ORG-1":{"name":"b,c"}}}"#)),
];

#[test]
fn c_jsprop_and_kept_lines() {
    check_cards(JSPROP_AND_KEPT);
}

#[test]
fn d_json_faults_and_the_look_up() {
    let place = |text: &[u8]| {
        let answer = to_card(text);
        (answer.number, answer.place)
    };
    assert_eq!(place(br#"{"a":1,"a":2,}"#), (11, 13), "reading 35");
    assert_eq!(place(br#"{"a":1,"a":2}"#), (11, 0), "reading 35");
    assert_eq!(place(br#"["\ud800"#), (11, 8), "reading 35");
    assert_eq!(place(b"\"\xe0\x80\""), (11, 2), "reading 36");
    assert_eq!(place(b"\"\xed\xa0\""), (11, 2), "reading 36");
    assert_eq!(place(b"\"\xc0\""), (11, 1), "reading 36");
    assert_eq!(place(&[b'['; 20]), (11, 16), "reading 36");
    assert_eq!(place(br#"{"a":1,"\u0061":2}"#), (11, 0), "reading 37");
    assert_eq!(
        place("{\"é\":1,\"e\u{301}\":2}".as_bytes()),
        (12, 0),
        "reading 37"
    );
    let nest = format!("{}1{}", "[".repeat(16), "]".repeat(16));
    assert_eq!(place(nest.as_bytes()), (12, 0), "reading 31");

    let text = br#" {"a" : [1, 2] ,"\u00e9":"x","":{ }}"#;
    assert_eq!(look_up(text, b"a"), b"[1, 2]", "reading 38");
    assert_eq!(look_up(text, "é".as_bytes()), b"\"x\"", "reading 38");
    assert_eq!(look_up(text, b""), b"{ }", "reading 38");
    assert_eq!(look_up(text, b"b"), b"", "reading 38");
    assert_eq!(look_up(b"[1]", b"a"), b"", "reading 38");
    assert_eq!(
        look_up(br#"{"a":1,"b":{"c":1,"c":2}}"#, b"a"),
        b"",
        "reading 38"
    );
    let mut long = br#"{"a":1}"#.to_vec();
    long.resize(65_536, b' ');
    assert_eq!(look_up(&long, b"a"), b"1", "reading 38");
    long.push(b' ');
    assert_eq!(look_up(&long, b"a"), b"", "reading 38");
}

#[rustfmt::skip]
const JSON_CARDS: &[Row] = &[
    (39, r#"{.."":1}"#, Refusal(12, 0)),
    (40, r#"{.."name":{}}"#, Refusal(12, 0)),
    (40, r#"{.."name":{"isOrdered":false}}"#, Refusal(12, 0)),
    (40, r#"{.."name":{"components":[]}}"#, Result("FN;DERIVED=TRUE:")),
    (40, r#"{.."name":{"components":[{"kind":"given","value":""}]}}"#, Result("FN;DERIVED=TRUE:")),
    (41, r#"{.."name":{"full":"a","isOrdered":false}}"#, Result("FN:a")),
    (41, r#"{.."name":{"full":"a","isOrdered":true}}"#, Refusal(12, 0)),
    (41, r#"{.."name":{"full":"a","isOrdered":null}}"#, Refusal(12, 0)),
    (41, r#"{.."name":{"full":"a","isOrdered":0}}"#, Refusal(12, 0)),
    (42, r#"{.."vCardProps":[["x",{"y":[]},"unknown",""]]}"#, Refusal(12, 0)),
    (42, r#"{.."vCardProps":[["x",{"y":""},"unknown",""]]}"#, Result("FN;DERIVED=TRUE:|X;Y=:")),
    (42, r#"{.."vCardProps":[["x",{"y":[""]},"unknown",""]]}"#, Result("FN;DERIVED=TRUE:|X;Y=:")),
    (43, r#"{.."organizations":{"k":{"name":"a","units":{}}}}"#, Refusal(12, 0)),
    (43, r#"{.."emails":{"k":{"address":"a","contexts":[]}}}"#, Refusal(12, 0)),
    (43, r#"{.."vCardProps":{}}"#, Refusal(12, 0)),
    (43, r#"{.."emails":null}"#, Refusal(12, 0)),
    (43, r#"{.."emails":{},"vCardProps":[]}"#, Result("FN;DERIVED=TRUE:")),
    (43, r#"{.."name":{"full":""},"titles":{"k":{"name":""}}}"#, Result("FN:|TITLE;PROP-ID=k:")),
    (43, r#"{.."organizations":{"k":{"name":"","units":[{"name":""}]}}}"#, Refusal(12, 0)),
    (43, r#"{.."organizations":{"k":{"name":"","units":[{"name":"D"}]}}}"#, Result("FN;DERIVED=TRUE:|ORG;PROP-ID=k:;D")),
];

#[test]
fn e_which_json_is_a_card() {
    check_json(JSON_CARDS);
}

#[rustfmt::skip]
const KEPT_ENTRIES: &[Row] = &[
    (44, r#"{.."vCardProps":[["note",{},"unknown","a\nb"]]}"#, Refusal(12, 0)),
    (44, r#"{.."vCardProps":[["jsprop",{"jsptr":"a\"b"},"unknown","1"]]}"#, Refusal(12, 0)),
    (44, r#"{.."vCardProps":[["x",{},"unknown","a\nb"]]}"#, Refusal(13, 0)),
    (44, r#"{.."vCardProps":[["jsprop",{"jsptr":"a"},"unknown","\"\u007f\""]]}"#, Refusal(12, 0)),
    (44, r#"{.."vCardProps":[["jsprop",{"jsptr":"a"},"unknown","\"\u0001\""]]}"#, Refusal(13, 0)),
    (45, r#"{.."name":{"full":"b"},"vCardProps":[["fn",{},"unknown","a"]]}"#, Result("FN:b|FN:a")),
    (45, r#"{.."vCardProps":[["fn",{},"unknown","a"]]}"#, Refusal(12, 0)),
    (45, r#"{.."vCardProps":[["fn",{"derived":"True"},"unknown","a"]]}"#, Refusal(12, 0)),
    (45, r#"{.."name":{"components":[{"kind":"given","value":""}]},"vCardProps":[["n",{},"unknown","a"]]}"#, Refusal(12, 0)),
    (45, r#"{.."emails":{"k":{"address":"a"}},"vCardProps":[["email",{"prop-id":"k"},"unknown","b"]]}"#, Result("FN;DERIVED=TRUE:|EMAIL;PROP-ID=k:a|EMAIL;PROP-ID=k:b")),
    (45, r#"{.."emails":{"k":{"address":"a"}},"vCardProps":[["email",{"prop-id":"l"},"unknown","b"]]}"#, Refusal(12, 0)),
    (48, r#"{.."vCardProps":[["begin",{},"unknown","a"]]}"#, Refusal(12, 0)),
    (48, r#"{.."vCardProps":[["end",{},"unknown","a"]]}"#, Refusal(12, 0)),
    (48, r#"{.."vCardProps":[["version",{},"unknown","a"]]}"#, Refusal(12, 0)),
    (48, r#"{.."vCardProps":[["uid",{},"unknown","a"]]}"#, Refusal(12, 0)),
    (48, r#"{.."vCardProps":[["kind",{},"unknown","a"]]}"#, Refusal(12, 0)),
    (48, r#"{.."vCardProps":[["x",{"value":"a"},"unknown","a"]]}"#, Refusal(12, 0)),
    (48, r#"{.."vCardProps":[["X",{},"unknown","a"]]}"#, Refusal(12, 0)),
    (48, r#"{.."vCardProps":[["x",{"Y":"a"},"unknown","a"]]}"#, Refusal(12, 0)),
    (48, r#"{.."vCardProps":[["x",{},"Text","a"]]}"#, Refusal(12, 0)),
    (48, r#"{.."vCardProps":[["x",{},"","a"]]}"#, Refusal(12, 0)),
    (48, r#"{.."vCardProps":[["x",{"group":"A"},"unknown","a"]]}"#, Refusal(12, 0)),
    (48, r#"{.."vCardProps":[["x",{"group":""},"unknown","a"]]}"#, Refusal(12, 0)),
    (48, r#"{.."vCardProps":[["x",{"y":"1","group":["a"]},"text","v"]]}"#, Result("FN;DERIVED=TRUE:|a.X;Y=1;VALUE=text:v")),
    (48, r#"{.."vCardProps":[["x",{"group":["a","b"]},"unknown","a"]]}"#, Refusal(12, 0)),
];

#[test]
fn e_which_entries_a_kept_line_gives() {
    check_json(KEPT_ENTRIES);
}

#[test]
fn e46_an_entry_over_the_counts_is_12() {
    let entry = |params: usize, values: usize, value_type: &str| {
        let mut list: Vec<String> = (1..params).map(|n| format!(r#""p{n}":"a""#)).collect();
        list.push(format!(r#""p0":[{}]"#, vec![r#""v""#; values].join(",")));
        list.push(r#""group":"g""#.to_string());
        let params = list.join(",");
        json(&format!(
            r#"{{.."vCardProps":[["x",{{{params}}},"{value_type}",""]]}}"#
        ))
    };
    assert_eq!(to_card(&entry(32, 1, "unknown")).number, 0);
    assert_eq!(to_card(&entry(32, 1, "text")).number, 12);
    assert_eq!(to_card(&entry(33, 1, "unknown")).number, 12);
    assert_eq!(to_card(&entry(1, 64, "unknown")).number, 0);
    assert_eq!(to_card(&entry(1, 64, "text")).number, 12);
    assert_eq!(to_card(&entry(1, 65, "unknown")).number, 12);
}

#[rustfmt::skip]
const STRINGS_AND_FORMS: &[Row] = &[
    (49, r#"{.."a\"b":1}"#, Refusal(13, 0)),
    (49, r#"{.."a\nb":1}"#, Refusal(13, 0)),
    (49, r#"{.."a\tb":1}"#, Result("FN;DERIVED=TRUE:|JSPROP;JSPTR=\"a\tb\":1")),
    (49, r#"{.."links":{"k":{"uri":"a\nb"}}}"#, Refusal(13, 0)),
    (49, r#"{.."vCardProps":[["x",{"y":"a\"b"},"unknown","a"]]}"#, Refusal(13, 0)),
    (49, r#"{.."vCardProps":[["x",{"y":"a\nb"},"unknown","a"]]}"#, Refusal(13, 0)),
    (49, r#"{.."vCardProps":[["x",{},"unknown","a\"b"]]}"#, Result("FN;DERIVED=TRUE:|X:a\"b")),
    (49, r#"{.."b":"\u0001\n"}"#, Result("FN;DERIVED=TRUE:|JSPROP;JSPTR=\"b\":\"\\\\u0001\\\\n\"")),
    (50, r#"{.."phones":{"k":{"number":"tel:1\n2"}}}"#, Result("FN;DERIVED=TRUE:|TEL;PROP-ID=k:tel:1\\n2")),
    (50, r#"{.."phones":{"k":{"number":"tel:1\u0001"}}}"#, Refusal(13, 0)),
    (50, r#"{.."phones":{"k":{"number":"tel:1\t,"}}}"#, Result("FN;DERIVED=TRUE:|TEL;PROP-ID=k;VALUE=uri:tel:1\t,")),
    (51, r#"{.."name":{"components":[{"kind":"generation","value":"a"},{"kind":"credential","value":"b"},{"kind":"credential","value":"a"}]}}"#, Refusal(13, 0)),
    (51, r#"{.."name":{"components":[{"kind":"surname","value":""},{"kind":"surname2","value":""}]}}"#, Result("FN;DERIVED=TRUE:")),
    (52, r#"{.."emails":{"k":{"address":"a","pref":1.0}}}"#, Refusal(12, 0)),
    (52, r#"{.."emails":{"k":{"address":"a","pref":1e0}}}"#, Refusal(12, 0)),
    (52, r#"{.."emails":{"k":{"address":"a","pref":"1"}}}"#, Refusal(12, 0)),
    (52, r#"{.."kind":"Org"}"#, Refusal(12, 0)),
    (52, r#"{.."kind":"a\u0001"}"#, Refusal(12, 0)),
    (52, r#"{.."emails":{"a\u0001":{"address":"a"}}}"#, Refusal(12, 0)),
    (53, r#"{.."emails":{"k":{"address":"a","features":{}}}}"#, Refusal(12, 0)),
    (53, r#"{.."notes":{"k":{"note":"a","contexts":{}}}}"#, Refusal(12, 0)),
    (53, r#"{.."titles":{"k":{"name":"a","pref":1}}}"#, Refusal(12, 0)),
    (53, r#"{.."notes":{"k":{"@type":"Note","note":"a"}}}"#, Refusal(12, 0)),
    (53, r#"{.."phones":{"k":{"number":"1","label":"a"}}}"#, Refusal(12, 0)),
];

#[test]
fn e_strings_and_forms() {
    let long_kind = format!(r#"{{.."kind":"{}"}}"#, "a".repeat(40_000));
    assert_eq!(to_card(&json(&long_kind)).number, 3, "reading 47");
    check_json(STRINGS_AND_FORMS);
}

#[rustfmt::skip]
const NORMAL_JSON: &[Row] = &[
    (55, r#"{.."name":{"components":[{"kind":"given","value":"Jane"},{"kind":"title","value":""},{"kind":"surname","value":"Doe"}]}}"#, Result("FN;DERIVED=TRUE:Doe Jane|N:Doe;Jane;;;;;")),
    (55, r#"{..}"#, Result("FN;DERIVED=TRUE:")),
    (56, r#"{.."vCardProps":[["fn",{"group":"g"},"unknown","b"]]}"#, Result("FN;DERIVED=TRUE:|g.FN:b")),
    (57, r#"{.."phones":{"k":{"number":"1","features":{"voice":true,"mobile":true,"fax":true},"contexts":{"work":true,"private":true}}}}"#, Result("FN;DERIVED=TRUE:|TEL;PROP-ID=k;TYPE=home,work,fax,cell,voice:1")),
];

#[test]
fn f_normal_forms_of_json() {
    check_json(NORMAL_JSON);
    let text = json(r#"{.."titles":{"k":{"name":"a"}}}"#);
    let back = to_json(&to_card(&text).bytes).bytes;
    assert_eq!(back.len(), text.len() + 15, "reading 63");
    let mut text = json(r#"{.."a":""#);
    text.extend_from_slice(b"\x7f\"}");
    let back = to_json(&to_card(&text).bytes).bytes;
    assert_eq!(back.len(), text.len() + 5, "reading 63");
}

#[rustfmt::skip]
const NORMAL_CARDS: &[(u32, &str, &str)] = &[
    (24, "V|FN:a|N:Foo,Foo;;;;;Foo", "FN:a|N:Foo;;;;;Foo;"),
    (26, "V|FN:a|ORG:;D", "FN:a|ORG;PROP-ID=ORG-1:;D"),
    (34, "V|FN:a,b\\;c", "FN:a\\,b;c"),
    (50, "V|FN:a|TEL:tel:1\\,2", "FN:a|TEL;PROP-ID=PHONE-1;VALUE=uri:tel:1,2"),
    (55, "V|FN;DERIVED=TRUE:x|N:a\\;b,c;d\\,", "FN;DERIVED=TRUE:a;b c d\\,|N:a\\;b,c;d\\,;;;;;"),
    (56, "V|a.FN:b", "FN;DERIVED=TRUE:|a.FN:b"),
    (57, "V|FN:a|TEL;TYPE=CELL;TYPE=\"work,home\";TYPE=cell:1", "FN:a|TEL;PROP-ID=PHONE-1;TYPE=home,work,cell:1"),
    (58, "V|FN:a|X;JSPTR=a;P=\"b\";Q=\"c,d\":1", "FN:a|X;JSPTR=\"a\";P=b;Q=\"c,d\":1"),
    (59, "V|FN:a|a.TEL:tel:1", "FN:a|a.TEL:tel:1"),
    (59, "V|FN:a|TEL;VALUE=URI:x", "FN:a|TEL;VALUE=uri:x"),
    (59, "V|FN:a|URL;VALUE=uri;X=1:x|URL;VALUE=uri:y", "FN:a|URL;PROP-ID=LINK-1:y|URL;X=1;VALUE=uri:x"),
    (60, "V|FN:a|x;value=Text;b=1;a=2:v", "FN:a|X;B=1;A=2;VALUE=text:v"),
    (60, "V|FN:a|tel;value=uri;type=Home;pref=2;prop-id=k:tel:1", "FN:a|TEL;PROP-ID=k;PREF=2;TYPE=home;VALUE=uri:tel:1"),
    (62, "V|FN:a|EMAIL;PROP-ID=b:1|EMAIL;PROP-ID=a:2", "FN:a|EMAIL;PROP-ID=b:1|EMAIL;PROP-ID=a:2"),
];

#[test]
fn f_normal_forms_of_cards() {
    check_homes(NORMAL_CARDS);
}

const CARD: &[u8] = b"BEGIN:VCARD\nVERSION:4.0\nFN:a\nEND:VCARD\n";

fn uid_of(what: &What) -> String {
    match what {
        What::Json(json) => show(look_up(json, b"uid")),
        other => format!("{other:?}"),
    }
}

#[test]
fn g65_to_66_numbers_and_rooms() {
    let mut reader = Reader::fresh();
    assert_eq!(uid_of(&reader.piece(b"a", CARD).what), r#""a-1""#);
    assert_eq!(reader.end(b"a").what, What::More);
    assert_eq!(uid_of(&reader.piece(b"a", CARD).what), r#""a-1""#);
    // Each BEGIN counts, also the one that answers 2; junk does not.
    assert_eq!(reader.piece(b"a", b"junk\n").what, What::Refused(1, 0));
    assert_eq!(reader.piece(b"a", b"BEGIN:VCARD\n").what, What::More);
    assert_eq!(
        reader.piece(b"a", b"BEGIN:VCARD\n").what,
        What::Refused(2, 0)
    );
    let rest = &CARD["BEGIN:VCARD\n".len()..];
    assert_eq!(uid_of(&reader.piece(b"b", rest).what), r#""b-3""#);
    // 2 beats 3.
    let oversize = [b"BEGIN:VCARD\n", &[b'x'; 40_000][..], b"\n"].concat();
    assert_eq!(reader.piece(b"a", &oversize).what, What::More);
    assert_eq!(
        reader.piece(b"a", b"BEGIN:VCARD\n").what,
        What::Refused(2, 0)
    );
    assert_eq!(reader.piece(b"a", &oversize[12..]).what, What::More);
    assert_eq!(reader.piece(b"a", b"END:VCARD\n").what, What::Refused(3, 0));
}

#[test]
fn g67_an_end_call_with_begin_begun() {
    let mut reader = Reader::fresh();
    reader.piece(b"a", b"BEGIN:VCARD");
    assert_eq!(reader.end(b"a").what, What::Refused(2, 0));
    assert_eq!(reader, Reader::fresh());
    reader.piece(b"a", b"BEGIN:VCARD\nbegin:vcard");
    assert_eq!(reader.end(b"a").what, What::Refused(2, 0));
    assert_ne!(reader, Reader::fresh());
    assert_eq!(reader.end(b"a").what, What::Refused(2, 0));
    assert_eq!(reader, Reader::fresh());
}

#[test]
fn g70_to_71_lines_outside_a_card_and_stems() {
    let junk: [&[u8]; 5] = [b" \n", b"\r\r\n", b" x\n", b"END:VCARD\n", b"\xff\n"];
    for line in junk {
        assert_eq!(Reader::fresh().piece(b"a", line).what, What::Refused(1, 0));
    }
    let mut reader = Reader::fresh();
    assert_eq!(reader.piece(b"a", b"").what, What::More);
    assert_eq!(reader.piece(b"", b"").what, What::Refused(15, 0));
    let without_lf = &CARD[..CARD.len() - 1];
    assert_eq!(reader.piece(b"a", without_lf).what, What::More);
    assert_eq!(uid_of(&reader.end(b"b").what), r#""b-1""#);
}

/// Each BEGIN counts, so that the last number is reached without whole cards.
#[test]
fn g72_a_card_past_the_last_number_is_3() {
    let mut reader = Reader::fresh();
    let opened = b"BEGIN:VCARD\n".repeat(999_999);
    let mut rest = &opened[..];
    while !rest.is_empty() {
        let consumed = reader.piece(b"a", rest).consumed;
        rest = &rest[consumed..];
    }
    let body = &CARD["BEGIN:VCARD\n".len()..];
    assert_eq!(uid_of(&reader.piece(b"a", body).what), r#""a-999999""#);
    assert_eq!(reader.piece(b"a", CARD).what, What::Refused(3, 0));
    assert_eq!(reader.piece(b"", CARD).what, What::Refused(15, 0));
}
