//! What is said of a refusal: of each cause its own words, at its own place.

use thymebarrel::*;

fn card_lines(card: impl AsRef<[u8]>) -> Vec<String> {
    let refusal = card_to_json("reg", 1, &card).expect_err("it is refused");
    refusal.explain_card(card).lines()
}

fn json_lines(json: &str) -> Vec<String> {
    let json = json.replace('\'', "\"");
    let refusal = json_to_card(&json).expect_err(&json);
    refusal.explain_json(&json).lines()
}

/// A card of these lines after BEGIN and VERSION.
fn card(lines: &str) -> String {
    format!("BEGIN:VCARD\nVERSION:4.0\n{lines}\nEND:VCARD\n")
}

fn person(members: &str) -> String {
    format!("{{'@type':'Card','version':'1.0','uid':'u',{members}}}")
}

#[test]
fn twelve_names_the_member() {
    for (members, told) in [
        ("'emails':{'EMAIL-1':{'address':'a','label':'b'}}", "emails.EMAIL-1.label: no member of an e-mail address"),
        ("'name':{'full':'a','@type':'Name'}", "name.@type: no member of a name"),
        ("'name':{'components':[{'kind':'separator','value':' '}]}", "name.components[0].kind is \"separator\", which is no kind of component: they are surname, given, given2, title, credential, surname2, generation"),
        ("'phones':{'a b':{'number':'1'}}", "phones.\"a b\" is a bad key: 1 to 255 of A-Z a-z 0-9 - _"),
        ("'phones':{'k':{'number':1}}", "phones.k.number is a number: it must be a string"),
        ("'phones':{'k':{'number':'1','features':{'cell':true}}}", "phones.k.features.cell is no feature: they are fax, mobile, pager, text, textphone, video, voice"),
        ("'links':{'k':{'uri':'a','pref':101}}", "links.k.pref is 101: it must be a whole number from 1 to 100"),
        ("'notes':{'k':{}}", "notes.k.note is missing"),
        ("'organizations':{'k':{'units':[]}}", "organizations.k is empty: it has neither a name nor a unit"),
        ("'kind':'Org'", "kind is \"Org\": a kind has small letters, digits and hyphens only"),
        ("'':1", "\"\" is a member with an empty name, which no JSPTR can name"),
        ("'vCardProps':[['x',{},'unknown','v'],['X',{},'unknown','v']]", "vCardProps[1][0] is \"X\": it must be a name of small letters, digits and hyphens"),
        ("'vCardProps':[['note',{},'unknown','v']]", "vCardProps[0] is a line that would not be kept where it stands"),
    ] {
        assert_eq!(json_lines(&person(members))[0], told);
    }
    assert_eq!(
        json_lines("{'@type':'Card','version':'2.0','uid':'u'}")[0],
        "version is \"2.0\": it must be \"1.0\""
    );
    assert_eq!(
        json_lines("{'version':'1.0','uid':'u'}")[0],
        "@type is missing: it must be \"Card\""
    );
    assert_eq!(
        json_lines("[]")[0],
        "the JSON is an array: a card is an object"
    );
}

#[test]
fn thirteen_names_the_string_and_the_character() {
    for (members, told) in [
        ("'notes':{'k':{'note':'ab\\u0001'}}", "notes.k.note: character 3 is the control character 1"),
        ("'links':{'k':{'uri':'a\\nb'}}", "links.k.uri: character 2 is the control character 10 (a line feed)"),
        ("'a\\u0022b':1", "\"a\\\"b\": the name goes into a parameter, and character 2 is a double quote, which no parameter can have"),
        ("'vCardProps':[['x',{'p':['a','\\u0022']},'unknown','']]", "vCardProps[0][1].p[1]: character 1 is a double quote, which no parameter can have"),
        ("'name':{'components':[{'kind':'surname2','value':'Foo'},{'kind':'surname','value':'Foo'}]}", "name.components[1].value is \"Foo\", which is a surname2, too"),
    ] {
        assert_eq!(json_lines(&person(members))[0], told);
    }
}

#[test]
fn eleven_shows_the_place_or_the_names() {
    let comma = json_lines("{'a':1,\n'b':2,\n}");
    assert_eq!(
        comma[..4],
        [
            "byte 15 (line 3, column 1):",
            "  }",
            "  ^",
            "A comma stands before the closing bracket."
        ]
    );
    let short = json_lines("{'é':");
    assert_eq!(
        short[..4],
        [
            "byte 6 (line 1, column 6):",
            "  {\"é\":",
            "       ^",
            "The JSON stops short."
        ]
    );
    let deep = "[".repeat(17);
    assert_eq!(
        json_lines(&deep)[3],
        "Objects and arrays within each other are deeper than 16."
    );
    assert_eq!(
        json_lines("{'a':{'b':1,'\\u0062':2}}")[0],
        "a.b is there twice"
    );
    let half = json_lines("{'a':'x\\ud800'}");
    assert_eq!(
        half[..4],
        [
            "byte 7 (line 1, column 8):",
            "  {\"a\":\"x\\ud800\"}",
            "         ^",
            "A string has half a surrogate pair."
        ]
    );
    assert_eq!(json_lines("")[0], "The text is empty.");
    assert_eq!(
        json_lines("\u{feff}{}")[0],
        "The text begins with a byte order mark, which JSON does not have."
    );
    assert_eq!(json_lines("BEGIN:VCARD\n")[0], "This is a vCard, not JSON.");
    let long = format!("[{}x]", "1,".repeat(500));
    let told = json_lines(&long);
    assert!(
        told[1].starts_with("  ...1,1,") && told[2].trim_start() == "^",
        "{told:?}"
    );
    assert_eq!(told[1].chars().nth(told[2].chars().count() - 1), Some('x'));
}

/// The cause, and the same card with the cause taken away, which converts.
#[test]
fn one_says_which_of_its_causes() {
    let good = card("FN:a");
    let with = |change: fn(&str) -> Vec<u8>| change(&good);
    let causes: [(Vec<u8>, &str); 13] = [
        (Vec::new(), "The card is empty."),
        (
            with(|c| [b"\xef\xbb\xbf", c.as_bytes()].concat()),
            "A byte order mark stands before BEGIN:VCARD.",
        ),
        (
            with(|c| c.encode_utf16().flat_map(u16::to_le_bytes).collect()),
            "This is UTF-16.",
        ),
        (
            with(|c| c.replace('\n', "\r").into_bytes()),
            "The lines end with CR alone.",
        ),
        (
            with(|c| format!("\n{c}").into_bytes()),
            "An empty line stands before BEGIN:VCARD.",
        ),
        (
            with(|c| format!("{c}\r\n").into_bytes()),
            "An empty line stands after END:VCARD.",
        ),
        (
            with(|c| c.replace("BEGIN:VCARD", "BEGIN:VCARD ").into_bytes()),
            "White space stands beside BEGIN:VCARD on its line.",
        ),
        (
            with(|c| c.replace("END:VCARD", "END:VCARD ").into_bytes()),
            "White space stands beside END:VCARD on its line.",
        ),
        (
            with(|c| c.repeat(2).into_bytes()),
            "There are 2 cards here.",
        ),
        (
            with(|c| c.replace("END:VCARD\n", "").into_bytes()),
            "The card has no END:VCARD: perhaps it was cut off.",
        ),
        (
            with(|_| b"{\"@type\":\"Card\"}".to_vec()),
            "This looks like JSON, not like a card.",
        ),
        (with(|c| format!("junk\n{c}").into_bytes()), "line 1: junk"),
        (with(|c| format!("{c}junk\n").into_bytes()), "line 5: junk"),
    ];
    for (card, told) in &causes {
        assert_eq!(card_lines(card)[0], *told);
    }
    assert!(card_to_json("reg", 1, &good).is_ok());
    let inside = card_lines(good.replace("FN:a", "begin:vcard\nFN:a"));
    assert_eq!(
        inside[..2],
        ["line 3: begin:vcard", "Such a line stands within the card."]
    );
}

/// What looks like a cause but is not it is not named.
#[test]
fn one_says_nothing_false() {
    assert_eq!(
        card_lines("\n{\"a\":1}")[0],
        "This looks like JSON, not like a card."
    );
    assert_eq!(
        card_lines("\njunk\n")[..2],
        ["line 1: ", "The first line is not BEGIN:VCARD."]
    );
    assert_eq!(
        card_lines("\u{feff}junk\n")[1],
        "The first line is not BEGIN:VCARD."
    );
    let nested = "BEGIN:VCARD\nBEGIN:VCARD\nVERSION:4.0\nFN:a\nEND:VCARD\nEND:VCARD\n";
    assert_eq!(
        card_lines(nested)[..2],
        ["line 2: BEGIN:VCARD", "Such a line stands within the card."]
    );
    assert_eq!(
        card_lines("END:VCARD\n\n")[0],
        "An empty line stands after END:VCARD."
    );
}

/// A stream's line outside of any card.
#[test]
fn outside_of_a_card_it_is_told_why() {
    let told = |stream: &[u8]| {
        let answer = Cards::new("reg", stream)
            .next()
            .expect("an answer")
            .expect("read");
        answer.explained.expect("it is refused").what
    };
    let outside = "This line stands outside of any card.";
    for (stream, what) in [
        (
            &b"\xef\xbb\xbfBEGIN:VCARD\nVERSION:4.0\n"[..],
            "A byte order mark stands before BEGIN:VCARD.",
        ),
        (
            b"BEGIN:VCARD \nVERSION:4.0\n",
            "White space stands beside BEGIN:VCARD on its line.",
        ),
        (
            b"BEGIN:VCARD\rVERSION:4.0\rEND:VCARD\r",
            "The lines end with CR alone.",
        ),
        (b"B\0E\0G\0I\0N\0", "This is UTF-16."),
        (
            b"{\"@type\":\"Card\"}\n",
            "This looks like JSON, not like a card.",
        ),
        (b"\xef\xbb\xbfjunk\n", outside),
        (b"END:VCARD\n", outside),
    ] {
        assert_eq!(told(stream), what);
    }
}

/// Within a string the marks of JSON mean nothing.
#[test]
fn eleven_says_nothing_false() {
    let what = |json: &[u8]| {
        json_to_card(json)
            .expect_err("refused")
            .explain_json(json)
            .what
    };
    assert_eq!(what(b"[\"\\'\"]"), "JSON has no such escape.");
    assert_eq!(
        what(b"[\"a\nb\"]"),
        "A string has a control character, which JSON writes as an escape."
    );
    assert_eq!(what(b"[\"\xff\"]"), "A string is not UTF-8.");
    assert_eq!(what(b"[\"abc"), "The JSON stops short, within a string.");
    assert_eq!(what(b"['a']"), "JSON has double quotes, not single ones.");
    assert_eq!(what(b"[1] // no"), "JSON has no comments.");
    assert_eq!(what(b"[\"\\u//\"]"), Reason::NotJson.meaning());
    assert_eq!(what(b"[1 / 2]"), Reason::NotJson.meaning());
    assert_eq!(what(b"{\0\"\0"), "This is UTF-16.");
}

#[test]
fn five_shows_the_column_and_the_cause() {
    for (line, column, what) in [
        ("NOTE this", 5, "This line has no colon."),
        (
            "X;P=a\"b:",
            6,
            "A quote may only stand around a whole parameter value.",
        ),
        ("X;P=\"ab:", 5, "This quote is not closed."),
        (
            "X;P=\"ab\"c:",
            9,
            "Here a comma, semicolon or colon after the closing quote is expected, not c.",
        ),
        (
            "TEL;HOME:1",
            9,
            "The parameter HOME has no = and no value: so vCard 2.1 writes it.",
        ),
        (":x", 1, "Here a name is expected, not :."),
        (
            "a_b:x",
            2,
            "Here a colon or a semicolon is expected, not _.",
        ),
        (
            "g.end:x",
            3,
            "A line within a card may not be named BEGIN or END.",
        ),
    ] {
        let told = card_lines(card(&format!("FN:é\n{line}")));
        assert_eq!(
            told[0],
            format!("line 3 (line 4 counting BEGIN and folds), column {column}:"),
            "{line}"
        );
        assert_eq!(
            (told[1].trim_start(), told[2].len(), &*told[3]),
            (line, 2 + column, what)
        );
    }
    assert_eq!(card_lines(card("FN:a\n\nNOTE:b"))[3], "This line is empty.");
    let many = card_lines(card(&format!("X{}:", ";P=v".repeat(33))));
    assert_eq!(many[3], "This line has over 32 parameters.");
}

#[test]
fn an_old_card_is_called_that_whatever_its_number() {
    let old = |version: &str, lines: &str| {
        card_lines(format!(
            "BEGIN:VCARD\nVERSION:{version}\n{lines}\nEND:VCARD\n"
        ))
    };
    let advice = |version| {
        format!("It is a vCard {version} card. Export it as vCard 4.0. Versions 2.1 and 3.0 are not read.")
    };
    assert_eq!(old("3.0", "FN:a")[0], "This is a vCard 3.0 card.");
    assert_eq!(old("2.1", "TEL;HOME:1")[4], advice("2.1"));
    let latin = [
        b"BEGIN:VCARD\nVERSION:2.1\nFN:Jos".as_slice(),
        b"\xe9\nEND:VCARD\n",
    ]
    .concat();
    assert_eq!(card_lines(latin)[4], advice("2.1"));
    let two = "BEGIN:VCARD\nVERSION:3.0\nFN:a\nEND:VCARD\n".repeat(2);
    assert!(card_lines(two)[1].ends_with(&advice("3.0")));
}

#[test]
fn four_tells_bad_utf8_from_a_control() {
    let control = card_lines(card("FN:a\u{1b}[31m"));
    assert_eq!(
        control[1..4],
        [
            "  FN:a\u{fffd}[31m",
            "      ^",
            "Byte 5 of this line is the control character 27 (escape)."
        ]
    );
    assert_eq!(control[4], "Take the control character out of this line.");
    // half a character at a line's end is garbled; a character broken by a fold is not
    let half = b"BEGIN:VCARD\nVERSION:4.0\nFN:a\xC3\n \xBC\nNOTE:b\xC3\nEND:VCARD\n";
    let told = card_lines(half);
    assert_eq!(
        told[0],
        "line 3 (line 5 counting BEGIN and folds), column 7:"
    );
    assert_eq!(
        told[3..],
        [
            "Byte 7 of this line, 0xc3, is not UTF-8.",
            "Save the card as UTF-8: it may be in Latin-1 or Windows-1252."
        ]
    );
}

#[test]
fn three_names_the_longest_line() {
    let photo = format!("FN:a\nPHOTO:{}\nNOTE:b", "x".repeat(40_000));
    let told = card_lines(card(&photo));
    assert!(
        told[0].starts_with(
            "the longest line, 40006 bytes, is line 3 (line 4 counting BEGIN and folds): PHOTO:xxx"
        ),
        "{told:?}"
    );
    assert_eq!(
        told[1],
        "The card has over 32,768 bytes, its last line end counted."
    );
    let quotes = card_lines(card(&format!(
        "FN:a\nX:{}{}",
        "\"".repeat(32_600),
        "\nY:".repeat(20)
    )));
    assert!(quotes[0].starts_with("the longest line, 32602 bytes, is line 3 "));
    assert_eq!(quotes[1], "The card's JSON would have over 65,536 bytes.");
}

#[test]
fn lines_of_a_card_are_told() {
    let uid = card_lines("begin:vcard\r\nVERSION:4.0\r\nFN:a\r\n b\r\nuid:u\r\nuid:v\r\nEND:VCARD");
    assert_eq!(
        uid[..2],
        [
            "line 4 (line 6 counting BEGIN and folds): uid:v",
            "A second UID line."
        ]
    );
    assert_eq!(
        card_lines(card("KIND:a b\nFN:a"))[1],
        "KIND has other than letters, digits and hyphens."
    );
    assert_eq!(card_lines(card("KIND:\nFN:a"))[1], "KIND is empty.");
    assert_eq!(
        card_lines(card("FN;GROUP=a:a"))[1],
        "No line takes a GROUP parameter, and VALUE is one name."
    );
    let late = card_lines("BEGIN:VCARD\nFN:a\nVERSION:4.0\nEND:VCARD\n");
    assert_eq!(
        late[..2],
        [
            "line 3 of the card: VERSION:4.0",
            "VERSION is not the first line."
        ]
    );
}

/// Nothing of an input can move a terminal's cursor or turn its text.
#[test]
fn what_is_shown_is_printable() {
    let odd = "a\u{1b}]0;x\u{7}\u{9b}\u{202e}b\r\n\t";
    assert_eq!(
        printable(odd),
        "a\u{fffd}]0;x\u{fffd}\u{fffd}\u{fffd}b\u{fffd}\u{fffd}\u{fffd}"
    );
    let told = card_lines(card(&format!(
        "FN:a\nUID:u\nUID:\u{202e}{}",
        "v".repeat(100)
    )));
    assert!(
        told[0].contains("UID:\u{fffd}vvv") && told[0].ends_with("v..."),
        "{told:?}"
    );
}
