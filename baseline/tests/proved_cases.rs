//! P1 to P12 of 01.

mod common;
use common::*;

#[test]
fn p1_a_phone_with_a_feature() {
    let answer = to_json(&card("V|FN:Ada Moss|TEL;TYPE=cell:+41 1"));
    let expected = concat!(
        r#"{"@type":"Card","version":"1.0","uid":"reg-1","name":{"full":"Ada Moss"},"#,
        r#""phones":{"PHONE-1":{"number":"+41 1","features":{"mobile":true}}}}"#,
    );
    assert_eq!(answer.number, 0);
    assert_eq!(show(&answer.bytes), expected);
}

#[test]
fn p2_home_again() {
    let json = to_json(&card("V|FN:Ada Moss|TEL;TYPE=cell:+41 1")).bytes;
    let home = "BEGIN:VCARD\r\nVERSION:4.0\r\nUID:reg-1\r\nFN:Ada Moss\r\n\
                TEL;PROP-ID=PHONE-1;TYPE=cell:+41 1\r\nEND:VCARD\r\n";
    assert_eq!(show(&to_card(&json).bytes), home);
}

#[test]
fn p3_empty_input() {
    assert_gives(&to_json(b""), &Gives::Refusal(1, 0), rest_of_json, "P3");
}

#[test]
fn p4_no_fn() {
    let answer = to_json(&card("V|N:a"));
    assert_gives(&answer, &Gives::Refusal(10, 0), rest_of_json, "P4");
}

#[test]
fn p5_two_equal_tel_lines() {
    let rest =
        r#""name":{"full":"a"},"phones":{"PHONE-1":{"number":"1"},"PHONE-2":{"number":"1"}}}"#;
    let answer = to_json(&card("V|FN:a|TEL:1|TEL:1"));
    assert_eq!(rest_of_json(&answer.bytes), rest);
}

#[test]
fn p6_pref_100_converts() {
    let rest = r#""name":{"full":"a"},"emails":{"EMAIL-1":{"address":"b","pref":100}}}"#;
    let answer = to_json(&card("V|FN:a|EMAIL;PREF=100:b"));
    assert_eq!(rest_of_json(&answer.bytes), rest);
}

#[test]
fn p7_pref_101_is_kept() {
    let rest = r#""name":{"full":"a"},"vCardProps":[["email",{"pref":"101"},"unknown","b"]]}"#;
    let answer = to_json(&card("V|FN:a|EMAIL;PREF=101:b"));
    assert_eq!(rest_of_json(&answer.bytes), rest);
}

#[test]
fn p8_a_kept_value_is_raw() {
    let rest = r#""name":{"full":"a"},"vCardProps":[["x-a",{"x-b":"c"},"unknown","d\\,e"]]}"#;
    let answer = to_json(&card(r"V|FN:a|X-A;X-B=c:d\,e"));
    assert_eq!(rest_of_json(&answer.bytes), rest);
}

#[test]
fn p9_a_family_value_also_among_the_secondary_surnames() {
    let rest = concat!(
        r#""name":{"full":"a","components":[{"kind":"surname","value":"Bar"},"#,
        r#"{"kind":"surname2","value":"Foo"}]}}"#,
    );
    let answer = to_json(&card("V|FN:a|N:Foo,Bar;;;;;Foo"));
    assert_eq!(rest_of_json(&answer.bytes), rest);
}

#[test]
fn p10_equal_surname_and_surname2() {
    let components = r#"[{"kind":"surname","value":"Foo"},{"kind":"surname2","value":"Foo"}]"#;
    let text = format!(r#"{{.."name":{{"components":{components}}}}}"#);
    let answer = to_card(&json(&text));
    assert_gives(&answer, &Gives::Refusal(13, 0), rest_of_card, "P10");
}

#[test]
fn p11_a_second_uid() {
    let answer = to_json(&card("V|FN:a|UID:u|UID:v"));
    assert_gives(&answer, &Gives::Refusal(8, 4), rest_of_json, "P11");
}

#[test]
fn p12_a_pointer_to_a_member_with_a_slash() {
    let answer = to_json(&card("V|FN:a|JSPROP;JSPTR=\"a~1b\":1"));
    let rest = r#""name":{"full":"a"},"a/b":1}"#;
    assert_eq!(rest_of_json(&answer.bytes), rest);
}
