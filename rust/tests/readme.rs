//! README's transcripts, typed again: each `$` line in a folder of its own that has the
//! examples, with what it writes to both outputs. And its prose, which is wrapped.

mod common;
use common::*;
use std::process::Command;

const README: &str = include_str!("../../README.md");

/// Each line that is typed, and what comes.
fn transcripts() -> Vec<(String, String)> {
    let mut found: Vec<(String, String)> = Vec::new();
    let mut inside = false;
    for line in README.lines() {
        let code = line.strip_prefix("    ");
        match (code.and_then(|code| code.strip_prefix("$ ")), code) {
            (Some(typed), _) => found.push((typed.to_string(), String::new())),
            (None, Some(code)) if inside => {
                let (_, comes) = found.last_mut().expect("a line was typed");
                comes.push_str(code);
                comes.push('\n');
            }
            _ => {}
        }
        inside = code.is_some_and(|code| inside || code.starts_with("$ "));
    }
    found
}

#[test]
fn what_is_typed_gives_what_is_shown() {
    let folder = scratch("readme");
    std::os::unix::fs::symlink(path("examples"), folder.join("examples")).expect("linked");
    let command = std::path::Path::new(env!("CARGO_BIN_EXE_thymebarrel"));
    let bin = command.parent().expect("a folder").display().to_string();
    let search = format!("{bin}:{}", std::env::var("PATH").expect("it is set"));
    let all = transcripts();
    assert!(all.len() >= 8, "{all:?}");
    for (typed, comes) in all {
        let mut shell = Command::new("sh");
        let shell = shell
            .args(["-c", &format!("{{ {typed}; }} 2>&1")])
            .env("PATH", &search);
        let output = run(shell.current_dir(&folder), b"");
        // cards have CR LF line ends
        assert_eq!(text(&output.stdout).replace('\r', ""), comes, "{typed}");
    }
}

/// The first result that is shown, which stands apart from its line.
#[test]
fn the_first_command_gives_what_is_shown() {
    assert!(README.contains(&format!("    {}", text(&sample("ada.json")))));
}

/// Prose is wrapped at some 120 columns; tables and transcripts are not.
#[test]
fn prose_is_wrapped() {
    let prose = README
        .lines()
        .filter(|line| !line.starts_with("    ") && !line.starts_with('|'));
    for line in prose {
        assert!(line.chars().count() <= 125, "{line}");
    }
}
