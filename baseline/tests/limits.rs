//! The rooms of 01, on both sides of each edge.

mod common;
use common::*;
use thymebarrel_baseline::{normal_card, normal_json, Reader, What};

/// A card of exactly that many bytes, the last of them an LF.
fn card_of_bytes(bytes: usize) -> Vec<u8> {
    let empty = card("V|FN:a|NOTE:").len();
    card(&format!("V|FN:a|NOTE:{}", "x".repeat(bytes - empty)))
}

#[test]
fn a_card_of_32768_bytes() {
    assert_eq!(card_of_bytes(32_768).len(), 32_768);
    assert_eq!(to_json(&card_of_bytes(32_768)).number, 0);
    assert_eq!(to_json(&card_of_bytes(32_769)).number, 3);
    // The supposed last LF counts (reading 1).
    let without_lf = |bytes| card_of_bytes(bytes)[..bytes - 1].to_vec();
    assert_eq!(to_json(&without_lf(32_768)).number, 0);
    assert_eq!(to_json(&without_lf(32_769)).number, 3);
    assert_eq!(to_json(&[b'\n'; 32_768]).number, 1);
    assert_eq!(to_json(&[b'\n'; 32_769]).number, 3);
}

/// A card of that many unfolded lines.
fn card_of_lines(lines: usize) -> Vec<u8> {
    card(&format!("V|FN:a{}", "|X:| y".repeat(lines - 2)))
}

#[test]
fn a_card_of_512_lines() {
    assert_eq!(to_json(&card_of_lines(512)).number, 0);
    let over = to_json(&card_of_lines(513));
    assert_eq!((over.number, over.place), (3, 0));
    // Sought before 4 and 5.
    let odd = card(&format!("V|FN:\u{1}{}", "|X".repeat(511)));
    assert_eq!(to_json(&odd).number, 3);
}

#[test]
fn a_made_uid_can_be_one_line_too_many() {
    let json = to_json(&card_of_lines(512)).bytes;
    assert_eq!(to_card(&json).number, 3);
    let json = to_json(&card_of_lines(511)).bytes;
    assert_eq!(
        to_card(&json).bytes,
        normal_card(&card_of_lines(511), b"reg", 1)
    );
}

#[test]
fn a_result_over_65536_bytes() {
    // Each quote is two bytes in JSON, each kept line 22.
    let quoted = |quotes| {
        card(&format!(
            "V|FN:a|NOTE:{}{}",
            "\"".repeat(quotes),
            "|X:".repeat(400)
        ))
    };
    let length = to_json(&quoted(20_000)).bytes.len();
    let most = 20_000 + (65_536 - length) / 2;
    assert_eq!(to_json(&quoted(most)).number, 0);
    assert_eq!(to_json(&quoted(most + 1)).number, 3);
}

#[test]
fn a_card_written_over_32768_bytes() {
    let note = |commas: usize| {
        let text = format!(
            r#"{{.."notes":{{"k":{{"note":"{}"}}}}}}"#,
            ",".repeat(commas)
        );
        to_card(&json(&text))
    };
    let too_many = (15_000..).find(|&commas| note(commas).number != 0);
    let too_many = too_many.expect("a note too long");
    assert_eq!((note(too_many).number, note(too_many).place), (3, 0));
    // One comma less, and its two bytes or a fold more fit.
    let longest = note(too_many - 1).bytes.len();
    assert!((32_764..=32_768).contains(&longest), "{longest}");
}

#[test]
fn json_of_65536_bytes() {
    let mut text = json(r#"{.."name":{"full":"a"}}"#);
    text.resize(65_536, b' ');
    assert_eq!(to_card(&text).number, 0);
    text.push(b' ');
    assert_eq!(to_card(&text).number, 3);
}

#[test]
fn json_of_depth_16() {
    let nested = |depth: usize| {
        let inner = depth - 1;
        json(&format!(
            r#"{{.."a":{}{}}}"#,
            "[".repeat(inner),
            "]".repeat(inner)
        ))
    };
    assert_eq!(to_card(&nested(16)).number, 0);
    let over = to_card(&nested(17));
    assert_eq!((over.number, over.place), (11, 42 + 4 + 15));
}

/// Missing title kinds add 15 bytes each on the way back (reading 63). Quotes
/// and kept lines make a long JSON of a short card.
#[test]
fn the_way_back_can_be_over_65536_bytes() {
    let titles: Vec<String> = (0..100)
        .map(|n| format!(r#""k{n}":{{"name":""}}"#))
        .collect();
    let kept = vec![r#"["x",{},"unknown",""]"#; 300].join(",");
    let text = |quotes: usize| {
        let note = "\\\"".repeat(quotes);
        let notes = format!(r#""notes":{{"k":{{"note":"{note}"}}}}"#);
        let titles = titles.join(",");
        json(&format!(
            r#"{{..{notes},"titles":{{{titles}}},"vCardProps":[{kept}]}}"#
        ))
    };
    let length = normal_json(&text(27_000)).len();
    let most = 27_000 + (65_536 - length) / 2;
    let there = to_card(&text(most));
    assert_eq!(there.number, 0);
    assert_eq!(to_json(&there.bytes).bytes, normal_json(&text(most)));
    let there = to_card(&text(most + 1));
    assert_eq!(there.number, 0);
    assert!(normal_json(&text(most + 1)).len() > 65_536);
    assert_eq!(to_json(&there.bytes).number, 3);
}

#[test]
fn a_stream_reads_any_length_but_refuses_at_end() {
    let mut reader = Reader::fresh();
    let long = card_of_bytes(32_769);
    assert_eq!(reader.piece(b"a", &long).what, What::Refused(3, 0));
    let fits = card_of_bytes(32_768);
    assert!(matches!(reader.piece(b"a", &fits).what, What::Json(_)));
    assert!(matches!(
        reader.piece(b"a", &fits[..32_767]).what,
        What::More
    ));
    assert!(matches!(reader.end(b"a").what, What::Json(_)));
    assert!(matches!(
        reader.piece(b"a", &long[..32_768]).what,
        What::More
    ));
    assert_eq!(reader.end(b"a").what, What::Refused(3, 0));
}
