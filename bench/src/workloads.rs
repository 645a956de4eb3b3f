//! The inputs that are measured: cards from small to full room, made without
//! chance, so that every run measures the same bytes.

use thymebarrel_baseline::normal_card;

/// A card of 12 lines, ASCII, nothing folded: what a telephone sends.
pub fn ordinary() -> Vec<u8> {
    card(&[
        "FN:Ada Moss",
        "N:Moss;Ada;Louise;Dr.;",
        "NICKNAME:Addie",
        "EMAIL;TYPE=work;PREF=1:ada.moss@watchworks.example",
        "EMAIL;TYPE=home:ada@moss.example",
        "TEL;TYPE=cell;PREF=1:+41 44 123 45 67",
        "TEL;TYPE=work,voice:+41 44 765 43 21",
        "ORG:Moss Watchworks;Repairs",
        "TITLE:Master watchmaker",
        "URL:https://watchworks.example/ada",
        "NOTE:Calls before ten\\, never after six. Two watches in the safe.",
    ])
}

/// 10 MB of ordinary cards, one after the other.
pub fn ordinary_cards() -> Vec<u8> {
    let card = ordinary();
    card.repeat(10_000_000 / card.len())
}

/// Letters beyond ASCII, escapes, kept lines and folds.
pub fn international() -> Vec<u8> {
    let note = "Der Sekundenzeiger bleibt bei 40 stehen\\, Gehäuse zerkratzt\\; Kundin wünscht Rückruf. ".repeat(4);
    let lines = [
        "UID:urn:uuid:4fbe8971-0bc3-424c-9c26-36c3e1eff6b1".to_string(),
        "FN:Žofie Müller-Šťastná".to_string(),
        "N:Müller,Šťastná;Žofie;Élise;Ing.;PhD;Müller;".to_string(),
        "NICKNAME:Žofka".to_string(),
        "TEL;TYPE=\"voice,cell\";PREF=1:+420 234 567 890".to_string(),
        "TEL;VALUE=uri;TYPE=home:tel:+43-1-234-5678;ext=12".to_string(),
        "EMAIL;TYPE=work:zofie@hodinářství.example".to_string(),
        "ORG:Hodinářství u Tří kohoutů;Opravy;Věžní hodiny".to_string(),
        "TITLE:Hodinářka".to_string(),
        "ROLE:Zástupkyně".to_string(),
        "item1.X-ABLABEL:時計師の友人".to_string(),
        "ADR;TYPE=work;LABEL=\"Náměstí 1, Praha\":;;Náměstí 1;Praha;;110 00;Česko".to_string(),
        "LANG;TYPE=work;PREF=1:cs".to_string(),
        format!("NOTE:{note}"),
        "X-WATCH;X-MOVEMENT=automatic;X-YEAR=1968:Omega Seamaster".to_string(),
    ];
    let folded: Vec<String> = lines.iter().map(|line| fold(line)).collect();
    card(&folded)
}

/// 512 lines of many kinds, filled up to 32,768 bytes.
pub fn full() -> Vec<u8> {
    card(&full_lines())
}

fn full_lines() -> Vec<String> {
    let mut lines = many_lines(&["FN:Full Card", "N:Card;Full;;;"]);
    let short = 32_768 - card(&lines).len();
    fill(&mut lines, "NOTE:", short);
    lines
}

/// 512 lines of many kinds that come home as a card of 32,768 bytes, keys and folds
/// counted.
pub fn full_home() -> Vec<u8> {
    card(&full_home_lines())
}

fn full_home_lines() -> Vec<String> {
    let mut lines = many_lines(&["UID:full", "FN:Full Card", "N:Card;Full;;;"]);
    let short = |lines: &[String]| 32_768 - normal_card(&card(lines), b"reg", 1).len();
    // the notes are folded; the titles, which are not, take the rest
    let notes = short(&lines) * 9 / 10;
    fill(&mut lines, "NOTE:", notes);
    let titles = short(&lines);
    fill(&mut lines, "TITLE:", titles);
    lines
}

/// From a card of 400 bytes to the full one, by whole lines.
pub fn growing() -> Vec<Vec<u8>> {
    grown(&full_lines())
}

/// The same of the card that comes home full.
pub fn growing_home() -> Vec<Vec<u8>> {
    grown(&full_home_lines())
}

fn grown(lines: &[String]) -> Vec<Vec<u8>> {
    let counts = [6, 15, 30, 60, 100, 150, 200, 250, 300, 350, 400, 455];
    counts.iter().map(|&count| card(&lines[..count])).chain([card(lines)]).collect()
}

/// JSPROP lines with arrays as deep as they may be, filled up to 32,768 bytes.
pub fn deep_card() -> Vec<u8> {
    let mut lines = vec!["FN:Deep".to_string(), "NOTE:".to_string()];
    lines.extend((0..500).map(|k| format!("JSPROP;JSPTR=\"m{k}\":{}", nested("1"))));
    let short = 32_768 - card(&lines).len();
    fill(&mut lines, "NOTE:", short);
    card(&lines)
}

/// Arrays in each other, so deep that a member of an object may hold them.
fn nested(inner: &str) -> String {
    format!("{}{inner}{}", "[".repeat(15), "]".repeat(15))
}

/// A JSON card of depth 16 and 65,536 bytes; escapes make it longer than its lines.
pub fn deep_json() -> Vec<u8> {
    let value = nested(&format!("\"{}\"", "\\u0061".repeat(14)));
    let members: Vec<String> = (0..400).map(|k| format!("\"m{k}\":{value}")).collect();
    let json = format!("{CARD_START},{}", members.join(","));
    format!("{json:<65535}}}").into_bytes()
}

/// Entries of vCardProps that are JSPROP lines, each kept for an error in its depths.
pub fn deep_kept() -> Vec<u8> {
    let value = format!("{}1,]", "[".repeat(15));
    let entry = format!(r#"["jsprop",{{"jsptr":"m"}},"unknown","{value}"]"#);
    format!(r#"{CARD_START},"vCardProps":[{}]}}"#, vec![entry; 500].join(",")).into_bytes()
}

const CARD_START: &str = r#"{"@type":"Card","version":"1.0","uid":"u""#;

/// These, and as many others as make 512 with VERSION.
fn many_lines(first: &[&str]) -> Vec<String> {
    let mut lines: Vec<String> = first.iter().map(|line| line.to_string()).collect();
    while lines.len() < 511 {
        let k = lines.len();
        lines.push(match k % 8 {
            0 => format!("TEL;TYPE=cell;PREF={}:+41 44 {k:07}", k % 100 + 1),
            1 => format!("EMAIL;TYPE=work:owner.{k}@watchworks.example"),
            2 => format!("X-SERIAL;X-CASE=\"{k};steel\":{k:08}"),
            3 => format!("NOTE:Watch {k}\\, strap worn\\; glass scratched"),
            4 => format!("URL;VALUE=uri:https://watchworks.example/{k}"),
            5 => format!("item{k}.X-LABEL:Shelf {k}"),
            6 => format!("ORG:Dealer {k};Branch {}", k % 7),
            _ => format!("TITLE:Keeper of watch {k}"),
        });
    }
    lines
}

/// So many bytes, spread over the lines that begin so.
fn fill(lines: &mut [String], start: &str, bytes: usize) {
    let count = lines.iter().filter(|line| line.starts_with(start)).count();
    let chosen = lines.iter_mut().filter(|line| line.starts_with(start));
    for (index, line) in chosen.enumerate() {
        let filler = bytes / count + usize::from(index < bytes % count);
        line.push_str(&"x".repeat(filler));
    }
}

/// 509 telephone lines, each with a PROP-ID.
pub fn prop_ids() -> Vec<u8> {
    let mut lines = vec!["FN:Many lines".to_string()];
    lines.extend((0..509).map(|k| format!("TEL;PROP-ID=line-{k}:+41 44 {k:07}")));
    card(&lines)
}

/// An object of 9,000 names, as short as they can be: 65,000 bytes.
pub fn names() -> Vec<u8> {
    let plain: Vec<char> = (33u8..127).map(char::from).filter(|c| !"\"\\".contains(*c)).collect();
    let ones = plain.iter().map(|c| c.to_string());
    let twos = plain.iter().flat_map(|a| plain.iter().map(move |b| format!("{a}{b}")));
    let threes = (0..9000).map(|k| format!("zz{k}"));
    let members: Vec<String> = ones.chain(twos).chain(threes).take(9000).map(|name| format!("\"{name}\":1")).collect();
    format!("{{{}}}", members.join(",")).into_bytes()
}

fn card(lines: &[impl AsRef<str>]) -> Vec<u8> {
    let mut text = String::from("BEGIN:VCARD\r\nVERSION:4.0\r\n");
    for line in lines {
        text.push_str(line.as_ref());
        text.push_str("\r\n");
    }
    text.push_str("END:VCARD\r\n");
    text.into_bytes()
}

/// Folded at 75 bytes, at whole characters.
fn fold(line: &str) -> String {
    let mut folded = String::new();
    let mut rest = line;
    let mut room = 75;
    while rest.len() > room {
        let cut = (0..=room).rev().find(|&at| rest.is_char_boundary(at)).unwrap_or(0);
        folded.push_str(&rest[..cut]);
        folded.push_str("\r\n ");
        rest = &rest[cut..];
        room = 74;
    }
    folded + rest
}
