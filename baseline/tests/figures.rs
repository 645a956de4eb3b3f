//! The figures of RFC 9555 that lie within 01's rules, with the members in
//! 01's order. The fold in figure 6 is written with one blank: the two of the
//! RFC's layout would leave a blank before the colon.

mod common;
use common::*;

/// The figure's lines give the figure's members, and come home as `home`.
fn check(lines: &str, members: &str, home: &str) {
    let json = to_json(&card(&format!("V|FN:a|{lines}")));
    assert_eq!(json.number, 0, "{lines}");
    let rest = format!(r#""name":{{"full":"a"}},{members}}}"#);
    assert_eq!(rest_of_json(&json.bytes), rest);
    let card = to_card(&json.bytes);
    let unfolded = show(&card.bytes).replace("\r\n ", "").into_bytes();
    assert_eq!(rest_of_card(&unfolded), format!("FN:a|{home}"));
}

#[test]
fn figure_6_prop_id() {
    check(
        "TEL;PROP-ID=PHONE-A;VALUE=uri;PREF=1;TYPE=\"voice,home\"| :tel:+1-555-555-5555;ext=5555|\
         TEL;PROP-ID=PHONE-B;VALUE=uri;TYPE=home| :tel:+33-01-23-45-67",
        concat!(
            r#""phones":{"PHONE-A":{"number":"tel:+1-555-555-5555;ext=5555","#,
            r#""contexts":{"private":true},"features":{"voice":true},"pref":1},"#,
            r#""PHONE-B":{"number":"tel:+33-01-23-45-67","contexts":{"private":true}}}"#,
        ),
        "TEL;PROP-ID=PHONE-A;PREF=1;TYPE=home,voice;VALUE=uri:tel:+1-555-555-5555;ext=5555|\
         TEL;PROP-ID=PHONE-B;TYPE=home;VALUE=uri:tel:+33-01-23-45-67",
    );
}

#[test]
fn figure_12_n_less_sort_as() {
    check_name(
        "N:| Stevenson;John;Philip,Paul;Dr.;Jr.,M.D.,A.C.P.;;Jr.",
        concat!(
            r#"{"kind":"surname","value":"Stevenson"},{"kind":"given","value":"John"},"#,
            r#"{"kind":"given2","value":"Philip"},{"kind":"given2","value":"Paul"},"#,
            r#"{"kind":"title","value":"Dr."},{"kind":"credential","value":"M.D."},"#,
            r#"{"kind":"credential","value":"A.C.P."},{"kind":"generation","value":"Jr."}"#,
        ),
        "N:Stevenson;John;Philip,Paul;Dr.;M.D.,A.C.P.,Jr.;;Jr.",
    );
}

fn check_name(line: &str, components: &str, home: &str) {
    let json = to_json(&card(&format!("V|FN:a|{line}")));
    let rest = format!(r#""name":{{"full":"a","components":[{components}]}}}}"#);
    assert_eq!(rest_of_json(&json.bytes), rest);
    let card = to_card(&json.bytes);
    assert_eq!(rest_of_card(&card.bytes), format!("FN:a|{home}"));
}

#[test]
fn figure_13_nickname() {
    check(
        "NICKNAME:Johnny",
        r#""nicknames":{"NICK-1":{"name":"Johnny"}}"#,
        "NICKNAME;PROP-ID=NICK-1:Johnny",
    );
}

#[test]
fn figure_16_email() {
    check(
        "EMAIL;TYPE=work:jqpublic@xyz.example.com|EMAIL;PREF=1:jane_doe@example.com",
        concat!(
            r#""emails":{"EMAIL-1":{"address":"jqpublic@xyz.example.com","#,
            r#""contexts":{"work":true}},"#,
            r#""EMAIL-2":{"address":"jane_doe@example.com","pref":1}}"#,
        ),
        "EMAIL;PROP-ID=EMAIL-1;TYPE=work:jqpublic@xyz.example.com|\
         EMAIL;PROP-ID=EMAIL-2;PREF=1:jane_doe@example.com",
    );
}

#[test]
fn figure_21_tel() {
    check(
        "TEL;VALUE=uri;PREF=1;TYPE=\"voice,home\":tel:+1-555-555-5555;ext=5555|\
         TEL;VALUE=uri;TYPE=home:tel:+33-01-23-45-67",
        concat!(
            r#""phones":{"PHONE-1":{"number":"tel:+1-555-555-5555;ext=5555","#,
            r#""contexts":{"private":true},"features":{"voice":true},"pref":1},"#,
            r#""PHONE-2":{"number":"tel:+33-01-23-45-67","contexts":{"private":true}}}"#,
        ),
        "TEL;PROP-ID=PHONE-1;PREF=1;TYPE=home,voice;VALUE=uri:tel:+1-555-555-5555;ext=5555|\
         TEL;PROP-ID=PHONE-2;TYPE=home;VALUE=uri:tel:+33-01-23-45-67",
    );
}

#[test]
fn figure_25_org_less_sort_as() {
    check(
        r"ORG:ABC\, Inc.;North American Division;Marketing",
        concat!(
            r#""organizations":{"ORG-1":{"name":"ABC, Inc.","#,
            r#""units":[{"name":"North American Division"},{"name":"Marketing"}]}}"#,
        ),
        r"ORG;PROP-ID=ORG-1:ABC\, Inc.;North American Division;Marketing",
    );
}

#[test]
fn figure_27_title_and_role_less_the_group() {
    check(
        "TITLE:Research Scientist|ROLE:Project Leader|ORG:ABC, Inc.",
        concat!(
            r#""titles":{"TITLE-1":{"kind":"title","name":"Research Scientist"},"#,
            r#""TITLE-2":{"kind":"role","name":"Project Leader"}},"#,
            r#""organizations":{"ORG-1":{"name":"ABC, Inc."}}"#,
        ),
        "TITLE;PROP-ID=TITLE-1:Research Scientist|ROLE;PROP-ID=TITLE-2:Project Leader|\
         ORG;PROP-ID=ORG-1:ABC\\, Inc.",
    );
}

#[test]
fn figure_45_an_extension() {
    check(
        "item1.X-FOO;X-BAR=Hello:World!",
        r#""vCardProps":[["x-foo",{"group":"item1","x-bar":"Hello"},"unknown","World!"]]"#,
        "item1.X-FOO;X-BAR=Hello:World!",
    );
    // The figure's own order of the parameters.
    let text =
        r#"{.."vCardProps":[["x-foo",{"x-bar":"Hello","group":"item1"},"unknown","World!"]]}"#;
    let home = rest_of_card(&to_card(&json(text)).bytes);
    assert_eq!(home, "FN;DERIVED=TRUE:|item1.X-FOO;X-BAR=Hello:World!");
}

#[test]
fn figure_48_an_unknown_property() {
    check(
        "JSPROP;JSPTR=\"someUnknownProperty\":true",
        r#""someUnknownProperty":true"#,
        "JSPROP;JSPTR=\"someUnknownProperty\":true",
    );
}

#[test]
fn figure_49_a_vendor_specific_property() {
    check(
        "JSPROP;JSPTR=\"example.com:foo\":{\"bar\":1234}",
        r#""example.com:foo":{"bar":1234}"#,
        "JSPROP;JSPTR=\"example.com:foo\":{\"bar\":1234}",
    );
}
