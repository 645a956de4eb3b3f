//! The command over many cards: streams, several files, folders, and lines back to cards.

mod common;
use common::*;
use std::fs;

/// Two good cards around a refused one.
fn mixed() -> Vec<u8> {
    [
        &sample("ada.vcf")[..],
        &sample("refused/8-second-uid.vcf"),
        &sample("zoe.vcf"),
    ]
    .concat()
}

fn stream_line(name: &str, number: usize, file: &str, offset: usize) -> String {
    let made = format!("reg-{number}");
    let json = text(&sample(&format!("{name}.json"))).replace("reg-1", &made);
    let length = sample(&format!("{name}.vcf")).len();
    format!("{{\"number\":{number},\"uid\":\"{made}\",\"file\":\"{file}\",\"offset\":{offset},\"length\":{length},\"card\":{}}}\n", json.trim_end())
}

const INPUT: &str = "standard input";
const SECOND: &str =
    r#"{"number":2,"refused":8,"place":4,"file":"standard input","offset":66,"length":51}"#;

#[test]
fn stream_of_files_that_go_on_counting() {
    let want = [
        stream_line("ada", 1, "ada.vcf", 0),
        stream_line("zoe", 2, "zoe.vcf", 0),
        stream_line("ada", 3, "ada.vcf", 0),
    ]
    .concat();
    gives(&["stream", "ada.vcf", "zoe.vcf", "ada.vcf"], b"", &want);
    gives(
        &["stream", "ada.vcf", "-", "ada.vcf"],
        &sample("zoe.vcf"),
        &want.replace("\"zoe.vcf\"", "\"standard input\""),
    );
    gives(
        &["stream"],
        &sample("ada.vcf"),
        &stream_line("ada", 1, INPUT, 0),
    );
    gives(
        &["stream", "--number", "12", "ada.vcf"],
        b"",
        &stream_line("ada", 12, "ada.vcf", 0),
    );
    gives(&["stream"], b"", "");
}

#[test]
fn stream_ends_at_the_first_refusal() {
    let (status, stdout, stderr) = typed(&["stream", "--stem=reg", "-", "ada.vcf"], &mixed());
    assert_eq!(
        (status, stdout),
        (1, format!("{}{SECOND}\n", stream_line("ada", 1, INPUT, 0)))
    );
    let told = "thymebarrel: standard input: card 2, 51 bytes from byte 66: refused 8
  line 4 (line 5 counting BEGIN and folds): UID:v
  A second UID line.
  A card has one of each: take this line out, or send two cards.
thymebarrel: 1 converted, 1 refused (1 by 8), 1 file not come to
";
    assert_eq!(stderr, told);
}

#[test]
fn stream_keeps_going() {
    let (status, stdout, stderr) = typed(&["stream", "--keep-going"], &mixed());
    let want = [
        stream_line("ada", 1, INPUT, 0),
        format!("{SECOND}\n"),
        stream_line("zoe", 3, INPUT, 117),
    ]
    .concat();
    assert_eq!((status, stdout), (1, want));
    assert!(
        stderr.ends_with("thymebarrel: 2 converted, 1 refused (1 by 8)\n"),
        "{stderr}"
    );
    let (_, stdout, stderr) = typed(&["stream", "--keep-going"], b"junk\n");
    let want = r#"{"after":0,"refused":1,"place":0,"file":"standard input","offset":0,"length":5}"#;
    assert_eq!(stdout, format!("{want}\n"));
    assert!(
        stderr.contains("after card 0, 5 bytes from byte 0: refused 1\n  junk\n"),
        "{stderr}"
    );
    let (status, stdout, stderr) = typed(&["stream", "--keep-going", "--quiet"], &mixed());
    assert_eq!((status, stdout.lines().count(), &*stderr), (1, 3, ""));
}

/// What cannot be read is told, counted, and passed over.
#[test]
fn stream_goes_on_after_a_file_that_cannot_be_read() {
    let files = ["not-there.vcf", "ada.vcf", "home", "zoe.vcf"];
    let (status, stdout, stderr) = typed(&[&["stream", "--keep-going"], &files[..]].concat(), b"");
    assert_eq!((status, stdout.lines().count()), (2, 2));
    assert!(
        stderr.starts_with("thymebarrel: not-there.vcf: No such file"),
        "{stderr}"
    );
    assert!(
        stderr.contains("thymebarrel: home: is a folder\n"),
        "{stderr}"
    );
    assert!(
        stderr.ends_with("thymebarrel: 2 converted, 0 refused, 2 files not read\n"),
        "{stderr}"
    );
    let (status, stdout, stderr) = typed(&[&["stream"], &files[..]].concat(), b"");
    assert_eq!((status, &*stdout), (2, ""));
    assert!(
        stderr.ends_with(
            "thymebarrel: 0 converted, 0 refused, 1 file not read, 3 files not come to\n"
        ),
        "{stderr}"
    );
}

/// An explanation is given once, with its count, and refusals are summed by number.
#[test]
fn the_same_explanation_is_given_once() {
    let no_fn = "BEGIN:VCARD\nVERSION:4.0\nEND:VCARD\n".repeat(500);
    let old = "BEGIN:VCARD\nVERSION:3.0\nFN:a\nEND:VCARD\n".repeat(2);
    let (status, stdout, stderr) = typed(&["stream", "--keep-going"], (no_fn + &old).as_bytes());
    assert_eq!(
        (status, stdout.lines().count(), stderr.lines().count()),
        (1, 502, 9)
    );
    assert_eq!(stderr.matches("no FN line").count(), 2);
    let end = "thymebarrel: refused 6, 2 times in all: This is a vCard 3.0 card.
thymebarrel: refused 10, 500 times in all: The card has no FN line, the full name.
thymebarrel: 0 converted, 502 refused (2 by 6, 500 by 10)
";
    assert!(stderr.ends_with(end), "{stderr}");
}

#[test]
fn a_byte_order_mark_before_a_stream() {
    let marked = [b"\xef\xbb\xbf", &mixed()[..]].concat();
    let (status, _, stderr) = typed(&["stream"], &marked);
    assert!(
        status == 1 && stderr.contains("  A byte order mark stands before BEGIN:VCARD.\n"),
        "{stderr}"
    );
    let (_, stdout, _) = typed(&["stream", "--skip-bom", "--keep-going"], &marked);
    let offsets: Vec<&str> = stdout
        .lines()
        .filter_map(|line| line.split("\"offset\":").nth(1)?.split(',').next())
        .collect();
    assert_eq!(offsets, ["3", "69", "120"]);
}

fn with_photo(name: &str, bytes: usize) -> String {
    let photo = format!(
        "item1.Photo;X=1:{}\r\n {}\r\n",
        "x".repeat(bytes / 2),
        "y".repeat(bytes / 2)
    );
    format!("BEGIN:VCARD\r\nVERSION:4.0\r\nFN:{name}\r\n{photo}NOTE:kept\r\nEND:VCARD\r\n")
}

/// Lines that are left out are told in the answer, and places in the file stay right.
#[test]
fn lines_can_be_left_out() {
    let cards = [with_photo("a", 40_000), with_photo("b", 100)].concat();
    let (status, _, stderr) = typed(&["stream"], cards.as_bytes());
    assert!(
        status == 1 && stderr.contains("  the longest line, 32"),
        "{stderr}"
    );
    assert!(stderr.contains("item1.Photo;X=1:xxx"), "{stderr}");
    let (status, stdout, _) = typed(&["stream", "--without", "photo,KEY"], cards.as_bytes());
    let first = with_photo("a", 40_000).len();
    let lines: Vec<&str> = stdout.lines().collect();
    assert_eq!((status, lines.len()), (0, 2));
    assert!(
        lines[0].contains(&format!(
            "\"offset\":0,\"length\":{first},\"without\":[\"PHOTO\"],\"card\":"
        )),
        "{}",
        lines[0]
    );
    assert!(
        lines[1].contains(&format!(
            "\"offset\":{first},\"length\":{},\"without\":[\"PHOTO\"]",
            cards.len() - first
        )),
        "{}",
        lines[1]
    );
    assert!(
        stdout.contains("\"note\":\"kept\"") && !stdout.to_lowercase().contains("photo\","),
        "{stdout}"
    );
    let (status, stdout, stderr) = typed(
        &["json", "--without=PHOTO", "--stem=a"],
        with_photo("a", 40_000).as_bytes(),
    );
    assert!(status == 0 && stdout.contains("kept") && !stdout.contains("xxx"));
    assert_eq!(stderr, "thymebarrel: standard input: PHOTO left out, 40021 bytes; lines are counted without them\n");
    gives(
        &["json", "--without=PHOTO", "ada.vcf"],
        b"",
        &text(&sample("ada.json")),
    );
    for names in ["VERSION", "begin", "PHOTO,", "a b"] {
        fails(
            &["json", "--without", names, "ada.vcf"],
            b"",
            2,
            "--without ",
        );
    }
}

#[test]
fn several_files_and_folders_to_a_folder() {
    let folder = scratch("several");
    let cards = folder.join("cards");
    fs::create_dir(&cards).expect("made");
    for name in ["ada", "kept"] {
        fs::copy(
            path(&format!("examples/{name}.vcf")),
            cards.join(format!("{name}.VCF")),
        )
        .expect("copied");
    }
    fs::write(cards.join("notes.txt"), "no card").expect("written");
    let zoe = path("examples/zoe.vcf").display().to_string();
    let (status, stdout, stderr) = typed_in(
        &folder,
        &["json", "--output", "out/json", "cards", &zoe],
        b"",
    );
    assert_eq!((status, &*stdout), (0, ""), "{stderr}");
    let ada = fs::read_to_string(folder.join("out/json/ada.json")).expect("it is there");
    assert_eq!(ada, text(&sample("ada.json")));
    // they count on, so that no two uids that are made are the same
    let zoe = fs::read_to_string(folder.join("out/json/zoe.json")).expect("it is there");
    assert_eq!(zoe, text(&sample("zoe.json")).replace("reg-1", "reg-3"));
    let (status, _, stderr) = typed_in(&folder, &["card", "--output", "home", "out/json"], b"");
    assert_eq!(status, 0, "{stderr}");
    let home = fs::read_to_string(folder.join("home/ada.vcf")).expect("it is there");
    assert_eq!(home, text(&sample("home/ada.vcf")));
    let (status, _, stderr) = typed_in(&folder, &["card", "--output", "home", "out/json"], b"");
    assert!(
        status == 2 && stderr.contains("home/ada.vcf: is there already; --force writes over it\n"),
        "{stderr}"
    );
    assert_eq!(
        typed_in(
            &folder,
            &["card", "--output", "home", "--force", "out/json"],
            b""
        )
        .0,
        0
    );
    let twice = typed_in(
        &folder,
        &["json", "--output", "o", "cards/ada.VCF", "cards/ada.VCF"],
        b"",
    );
    assert!(
        twice.0 == 2 && twice.2.contains("two files would be written to o/ada.json"),
        "{}",
        twice.2
    );
}

#[test]
fn several_files_some_refused() {
    let folder = scratch("some-refused");
    let files = [
        "refused/8-second-uid.vcf",
        "ada.vcf",
        "refused/10-no-fn.vcf",
        "not-there.vcf",
    ];
    let files: Vec<String> = files
        .iter()
        .map(|name| path(&format!("examples/{name}")).display().to_string())
        .collect();
    let mut words = vec!["json", "--output", "out"];
    words.extend(files.iter().map(String::as_str));
    let (status, _, stderr) = typed_in(&folder, &words, b"");
    assert!(
        status == 1 && stderr.ends_with("0 converted, 1 refused (1 by 8), 3 files not come to\n"),
        "{stderr}"
    );
    words.push("--keep-going");
    let (status, _, stderr) = typed_in(&folder, &words, b"");
    assert!(
        status == 2
            && stderr.ends_with("1 converted, 2 refused (1 by 8, 1 by 10), 1 file not read\n"),
        "{stderr}"
    );
    assert_eq!(
        fs::read_dir(folder.join("out"))
            .expect("it is there")
            .count(),
        1
    );
}

/// What `stream` wrote comes back, card for card; refusals of it are passed over.
#[test]
fn lines_back_to_cards() {
    let (_, lines, _) = typed(&["stream", "--keep-going"], &mixed());
    let (status, cards, stderr) = typed(&["card"], lines.as_bytes());
    let home = [
        text(&sample("home/ada.vcf")),
        text(&sample("home/zoe.vcf")).replace("reg-1", "reg-3"),
    ]
    .concat();
    assert_eq!((status, cards), (0, home));
    assert!(
        stderr.contains("1 line tells of a card that was refused before"),
        "{stderr}"
    );
    // one line, and lines of JSON alone
    let one = stream_line("ada", 1, "x", 0);
    gives(&["card"], one.as_bytes(), &text(&sample("home/ada.vcf")));
    let two = [sample("ada.json"), b"\n".to_vec(), sample("zoe.json")].concat();
    let both = [sample("home/ada.vcf"), sample("home/zoe.vcf")].concat();
    gives(&["card"], &two, &text(&both));
    gives(
        &["card"],
        &[sample("ada.json"), b"\n \n".to_vec()].concat(),
        &text(&sample("home/ada.vcf")),
    );
}

#[test]
fn a_line_that_is_refused() {
    let lines = [
        sample("ada.json"),
        b"{\"card\":{\"@type\":\"Card\",\"version\":\"1.0\",\"uid\":\"\"}}\n".to_vec(),
        sample("zoe.json"),
    ]
    .concat();
    let (status, stdout, stderr) = typed(&["card"], &lines);
    assert_eq!((status, stdout), (1, text(&sample("home/ada.vcf"))));
    let told = "thymebarrel: standard input: line 2: refused 12
  uid is empty
  Mend this member; docs/RULES.md, To vCard, says what a card may have.
thymebarrel: 1 converted, 1 refused (1 by 12)
";
    assert_eq!(stderr, told);
    let (status, stdout, _) = typed(&["card", "--keep-going"], &lines);
    let both = [sample("home/ada.vcf"), sample("home/zoe.vcf")].concat();
    assert_eq!((status, stdout), (1, text(&both)));
}

/// A card's JSON may be as long as it may be, and the line that wraps it longer.
#[test]
fn a_line_longer_than_json_may_be() {
    let start = r#"{"@type":"Card","version":"1.0","uid":"u"}"#;
    let full = format!("{start}{}", " ".repeat(65_536 - start.len()));
    let line = format!("{{\"number\":1,\"card\":{full}}}\n");
    let card = "BEGIN:VCARD\r\nVERSION:4.0\r\nUID:u\r\nFN;DERIVED=TRUE:\r\nEND:VCARD\r\n";
    gives(&["card"], line.repeat(3).as_bytes(), &card.repeat(3));
}
