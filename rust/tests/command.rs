//! The command as a person types it, with one input.

mod common;
use common::*;

#[test]
fn json_of_a_file_and_of_standard_input() {
    for name in SAMPLES {
        let (card, json) = (
            format!("{name}.vcf"),
            text(&sample(&format!("{name}.json"))),
        );
        gives(&["json", &card], b"", &json);
        gives(&["json"], &sample(&card), &json);
        gives(&["json", "-"], &sample(&card), &json);
        gives(&["json", "--", &card], b"", &json);
    }
}

#[test]
fn card_of_json() {
    for name in SAMPLES {
        let home = text(&sample(&format!("home/{name}.vcf")));
        gives(&["card", &format!("{name}.json")], b"", &home);
        gives(&["card"], &sample(&format!("{name}.json")), &home);
    }
    for (name, number, _) in REFUSED_JSON {
        fails(
            &["card", name],
            b"",
            1,
            &format!("thymebarrel: {name}: refused {number}\n"),
        );
    }
    fails(
        &["card", "refused/11-comma.json"],
        b"",
        1,
        "\n  byte 43 (line 1, column 44):\n",
    );
    fails(
        &["card", "refused/12-no-uid.json"],
        b"",
        1,
        "\n  uid is missing: a card has a uid\n",
    );
    fails(
        &["card", "--stem", "a", "ada.json"],
        b"",
        2,
        "no option --stem here",
    );
}

#[test]
fn stem_and_number() {
    let json = text(&sample("ada.json")).replace("reg-1", "shop-12");
    gives(
        &["json", "--stem", "shop", "--number", "12", "ada.vcf"],
        b"",
        &json,
    );
    gives(
        &["json", "ada.vcf", "--number=12", "--stem=shop"],
        b"",
        &json,
    );
    fails(&["json", "--number"], b"", 2, "--number needs a value: N");
    fails(
        &["json", "--stem=a", "--stem=b"],
        b"",
        2,
        "--stem is given twice",
    );
}

/// Out of range is bad usage wherever it can be typed, and the option is named.
#[test]
fn a_stem_or_number_out_of_range() {
    let long = "a".repeat(201);
    for command in ["json", "stream"] {
        for number in [
            "0",
            "1000000",
            "18446744073709551615",
            "18446744073709551616",
            "-1",
            "one",
            "",
        ] {
            let says = format!("--number {number} is not 1 to 999999\n");
            fails(
                &[command, &format!("--number={number}"), "ada.vcf"],
                b"",
                2,
                &says,
            );
        }
        for stem in ["a b", "", "é", "a.b", &long] {
            let says = format!("--stem {stem} is not 1 to 200 characters");
            fails(&[command, "--stem", stem, "ada.vcf"], b"", 2, &says);
        }
        let (status, stdout, _) = typed(&[command, "--number", "999999", "ada.vcf"], b"");
        assert_eq!((status, stdout.contains("reg-999999")), (0, true));
    }
}

#[test]
fn refusals_are_explained() {
    for (name, number, _) in REFUSED {
        fails(
            &["json", name],
            b"",
            1,
            &format!("thymebarrel: {name}: refused {number}\n"),
        );
    }
    let uid = "thymebarrel: standard input: refused 8
  line 4 (line 5 counting BEGIN and folds): UID:v
  A second UID line.
  A card has one of each: take this line out, or send two cards.
";
    fails(&["json"], &sample("refused/8-second-uid.vcf"), 1, uid);
    let two = sample("ada.vcf").repeat(2);
    fails(
        &["json"],
        &two,
        1,
        "\n  There are 2 cards here.\n  Use thymebarrel stream",
    );
    let (status, stdout, stderr) = typed(&["json", "--quiet"], &two);
    assert_eq!((status, &*stdout, &*stderr), (1, "", ""));
}

#[test]
fn an_endless_input_is_refused() {
    let over = vec![b'x'; 40_000_000];
    fails(&["json"], &over, 1, "\n  The card has over 32,768 bytes");
    fails(
        &["member", "a"],
        &over,
        1,
        "refused 3\n  The JSON has over 65,536 bytes.\n",
    );
    fails(&["card"], &over, 1, "refused 3\n");
}

#[test]
fn a_byte_order_mark_is_told_and_can_be_skipped() {
    let marked = |name: &str| [b"\xef\xbb\xbf", &sample(name)[..]].concat();
    fails(
        &["json"],
        &marked("ada.vcf"),
        1,
        "\n  A byte order mark stands before BEGIN:VCARD.\n",
    );
    fails(&["card"], &marked("ada.json"), 1, "with --skip-bom.\n");
    gives(
        &["json", "--skip-bom"],
        &marked("ada.vcf"),
        &text(&sample("ada.json")),
    );
    gives(
        &["json", "--skip-bom", "ada.vcf"],
        b"",
        &text(&sample("ada.json")),
    );
    gives(
        &["card", "--skip-bom"],
        &marked("ada.json"),
        &text(&sample("home/ada.vcf")),
    );
    gives(
        &["member", "--skip-bom", "uid"],
        &marked("ada.json"),
        "\"reg-1\"\n",
    );
}

#[test]
fn member() {
    gives(&["member", "uid", "ada.json"], b"", "\"reg-1\"\n");
    gives(
        &["member", "name"],
        &sample("ada.json"),
        "{\"full\":\"Ada Moss\"}\n",
    );
    gives(&["member", "a/b", "kept.json"], b"", "1\n");
    fails(&["member"], b"", 2, "member needs a name");
    fails(
        &["member", "--stem", "a", "uid"],
        b"",
        2,
        "no option --stem here",
    );
}

/// No such member, no object and no JSON are told apart.
#[test]
fn why_there_is_no_member() {
    fails(
        &["member", "kind", "ada.json"],
        b"",
        1,
        "ada.json: no member kind\n",
    );
    fails(
        &["member", "kind"],
        b" [1]",
        1,
        "standard input: this JSON is no object",
    );
    fails(
        &["member", "kind"],
        b"no JSON",
        1,
        "standard input: refused 11\n  byte 1 (line 1, column 2):\n    no JSON\n     ^\n",
    );
    fails(
        &["member", "a"],
        b"{\"a\":1,\"a\":2}",
        1,
        "refused 11\n  a is there twice\n",
    );
}

#[test]
fn a_made_uid_is_told() {
    let (_, _, told) = typed(&["json", "ada.vcf"], b"");
    assert!(
        told.starts_with("thymebarrel: one card has no UID: its uid was made of the stem reg\n"),
        "{told}"
    );
    for words in [
        ["json", "--stem=shop", "ada.vcf"],
        ["json", "--quiet", "ada.vcf"],
    ] {
        assert_eq!(typed(&words, b"").2, "", "{words:?}");
    }
    let own = b"BEGIN:VCARD\nVERSION:4.0\nFN:a\nUID:reg-1\nEND:VCARD\n";
    assert_eq!(typed(&["json"], own).2, "");
}

#[test]
fn explain() {
    for number in 1..=16 {
        let (status, stdout, stderr) = typed(&["explain", &number.to_string()], b"");
        assert_eq!((status, stderr.as_str()), (0, ""));
        assert!(stdout.starts_with(&format!("{number}: ")) && stdout.contains("\nPlace: "));
    }
    let (_, stdout, _) = typed(&["explain", "7", "3"], b"");
    assert!(stdout.contains("\nPlace 3: line 3 after BEGIN"), "{stdout}");
    fails(&["explain", "7", "0"], b"", 2, "refusal 7 has no place 0");
    fails(&["explain", "10", "3"], b"", 2, "refusal 10 has no place 3");
    fails(
        &["explain", "17"],
        b"",
        2,
        "no refusal 17: they are 1 to 16",
    );
    fails(&["explain", "x"], b"", 2, "no refusal x");
    fails(&["explain"], b"", 2, "explain needs a refusal number");
}

#[test]
fn bad_usage() {
    fails(&[], b"", 2, "--help");
    fails(&["jsn"], b"", 2, "no command jsn");
    fails(
        &["json", "ada.vcf", "zoe.vcf"],
        b"",
        2,
        "several files need --output DIR",
    );
    fails(
        &["member", "uid", "ada.json", "zoe.json"],
        b"",
        2,
        "one word too many: zoe.json",
    );
    fails(&["json", "--fast"], b"", 2, "no option --fast here");
    fails(&["json", "-x", "ada.vcf"], b"", 2, "no option -x here");
    fails(
        &["json", "--quiet=yes", "ada.vcf"],
        b"",
        2,
        "--quiet takes no value",
    );
    fails(&["json", "not-there.vcf"], b"", 2, "not-there.vcf: ");
    fails(&["json", "home"], b"", 2, "home: is a folder\n");
    fails(&["json", "--", "-x"], b"", 2, "-x: No such file");
}
