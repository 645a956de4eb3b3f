//! The command at a terminal, made by util-linux's `script`: what it shows there, and
//! that nothing of a file's name or of a card moves the cursor. Where there is no
//! `script` this is left out.

mod common;
use common::*;
use std::fs;
use std::path::Path;
use std::process::Command;

/// What a terminal gets to see of a shell line with the command as $THYMEBARREL.
fn seen(folder: &Path, line: &str) -> Option<Vec<u8>> {
    let mut script = Command::new("script");
    let script = script
        .args(["-qec", line, "/dev/null"])
        .env("THYMEBARREL", env!("CARGO_BIN_EXE_thymebarrel"));
    if Command::new("script").arg("--version").output().is_err() {
        println!("no script here: the terminal is left out");
        return None;
    }
    Some(run(script.current_dir(folder), b"").stdout)
}

fn has(text: &[u8], part: &str) -> bool {
    text.windows(part.len())
        .any(|window| window == part.as_bytes())
}

const ODD: &str = "a\u{1b}[31mb\u{7}.vcf";

#[test]
fn no_control_character_of_a_name_or_a_card_is_shown() {
    let folder = scratch("odd-names");
    fs::write(
        folder.join(ODD),
        "BEGIN:VCARD\nVERSION:4.0\nFN:a\nUID:\u{9b}31mx\nUID:y\u{9b}31m\nEND:VCARD\n",
    )
    .expect("written");
    for command in ["json", "stream --keep-going"] {
        let Some(shown) = seen(
            &folder,
            &format!("$THYMEBARREL {command} *.vcf > /dev/null"),
        ) else {
            return;
        };
        assert!(
            has(&shown, "a\u{fffd}[31mb\u{fffd}.vcf: "),
            "{}",
            text(&shown)
        );
        let controls = text(&shown)
            .chars()
            .filter(|c| c.is_control() && !"\r\n".contains(*c))
            .count();
        assert_eq!(controls, 0, "{}", text(&shown));
    }
    let (_, stdout, _) = typed_in(&folder, &["stream", "--keep-going", ODD], b"");
    assert!(
        stdout.contains("\"file\":\"a\\u001b[31mb\\u0007.vcf\""),
        "{stdout}"
    );
}

/// Cards, a pause, and a last card: long enough for the progress to be shown.
const SLOW: &str = "(cat ada.vcf; sleep 1; cat ada.vcf) | $THYMEBARREL stream --stem a > /dev/null";

#[test]
fn progress_comes_and_goes() {
    let Some(shown) = seen(&path("examples"), SLOW) else {
        return;
    };
    assert!(
        has(&shown, "2 converted, 0 refused\r\n"),
        "{}",
        text(&shown)
    );
    assert!(shown.ends_with(b"\x1b[A\r\x1b[K"), "{}", text(&shown));
    let quiet = SLOW.replace("--stem a", "--stem a --quiet");
    assert_eq!(seen(&path("examples"), &quiet), Some(Vec::new()));
}

/// After Ctrl-C the cursor stands at the beginning of a line, below the progress.
#[test]
fn after_an_interrupt_the_line_is_free() {
    let line = "(cat ada.vcf; sleep 1; cat ada.vcf; sleep 2) | timeout --signal INT 2 $THYMEBARREL stream --stem a > /dev/null";
    let Some(shown) = seen(&path("examples"), line) else {
        return;
    };
    assert!(
        shown.ends_with(b"2 converted, 0 refused\r\n"),
        "{}",
        text(&shown)
    );
}
