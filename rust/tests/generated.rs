//! Help, the manual page and the completions, held to what the parser takes.

mod common;
use common::*;
use std::process::Command;

const COMMANDS: [&str; 7] = [
    "json", "card", "stream", "member", "explain", "generate", "help",
];
const OPTIONS: [(&str, &str); 8] = [
    ("--stem", "a"),
    ("--number", "2"),
    ("--without", "PHOTO"),
    ("--skip-bom", ""),
    ("--output", "."),
    ("--force", ""),
    ("--keep-going", ""),
    ("--quiet", ""),
];

fn out(words: &[&str]) -> String {
    let (status, stdout, stderr) = typed(words, b"");
    assert_eq!((status, &*stderr), (0, ""), "{words:?}");
    stdout
}

/// Which options the parser takes after a command: asked by typing them.
fn taken(command: &str) -> Vec<&'static str> {
    let takes = |(name, value): &&(&'static str, &str)| {
        let word = if value.is_empty() {
            name.to_string()
        } else {
            format!("{name}={value}")
        };
        let (_, _, stderr) = typed(&[command, &word, "not-there"], b"");
        !stderr.contains("no option")
    };
    OPTIONS
        .iter()
        .filter(takes)
        .map(|(name, _)| *name)
        .collect()
}

/// The options that stand in a text, each once.
fn options_in(text: &str) -> Vec<&'static str> {
    let word = |c: char| !(c.is_ascii_alphanumeric() || c == '-');
    OPTIONS
        .iter()
        .map(|(name, _)| *name)
        .filter(|name| text.split(word).any(|part| part == *name))
        .collect()
}

#[test]
fn help_of_a_command_has_its_options() {
    for command in COMMANDS {
        let help = out(&["help", command]);
        assert!(
            help.starts_with(&format!("thymebarrel {command} ")),
            "{help}"
        );
        assert!(
            help.lines().all(|line| line.chars().count() <= 80),
            "{help}"
        );
        let usage = help.split("\n\n").next().unwrap_or_default();
        assert_eq!(options_in(usage), taken(command), "{command}");
        assert_eq!(out(&[command, "--help"]), help);
        assert_eq!(out(&[command, "-h"]), help);
    }
    fails(&["help", "jsn"], b"", 2, "no command jsn");
}

#[test]
fn help_and_version() {
    let help = out(&["--help"]);
    for word in COMMANDS.iter().chain(&["Exit status", "reg-1", "--stem"]) {
        assert!(help.contains(word), "{word}");
    }
    assert!(
        help.lines().all(|line| line.chars().count() <= 80),
        "{help}"
    );
    assert_eq!(out(&["help"]), help);
    assert_eq!(
        out(&["--version"]),
        concat!("thymebarrel ", env!("CARGO_PKG_VERSION"), "\n")
    );
}

#[test]
fn the_manual_has_every_command_and_option() {
    let page = out(&["generate", "man"]);
    let plain = page.replace("\\-", "-");
    for command in COMMANDS {
        let (_, section) = plain.split_once(&format!(".SS {command} ")).expect(command);
        let section = section.split(".SS ").next().unwrap_or_default();
        let section = section.split(".SH ").next().unwrap_or_default();
        assert_eq!(
            options_in(section.split("\n").next().unwrap_or_default()),
            taken(command),
            "{command}"
        );
        let described: Vec<&str> = OPTIONS
            .iter()
            .map(|(name, _)| *name)
            .filter(|name| section.contains(&format!("\\fB{name}\\fR")))
            .collect();
        assert_eq!(described, taken(command), "{command}");
    }
    if Command::new("groff").arg("--version").output().is_ok() {
        let output = run(
            Command::new("groff").args(["-man", "-Tutf8", "-ww"]),
            page.as_bytes(),
        );
        assert!(
            output.status.success() && output.stderr.is_empty(),
            "{}",
            text(&output.stderr)
        );
    }
}

/// bash itself is asked what it would complete.
fn completed(words: &[&str]) -> Vec<String> {
    let quoted: Vec<String> = words.iter().map(|word| format!("'{word}'")).collect();
    let line = format!(
        "source <($THYMEBARREL generate bash); COMP_WORDS=({}); COMP_CWORD={}; _thymebarrel; printf '%s\\n' \"${{COMPREPLY[@]}}\"",
        quoted.join(" "),
        words.len() - 1,
    );
    let mut bash = Command::new("bash");
    let bash = bash
        .args(["-c", &line])
        .env("THYMEBARREL", env!("CARGO_BIN_EXE_thymebarrel"));
    let output = run(bash.current_dir(path("examples")), b"");
    assert!(
        output.status.success() && output.stderr.is_empty(),
        "{}",
        text(&output.stderr)
    );
    text(&output.stdout)
        .lines()
        .map(str::to_string)
        .filter(|line| !line.is_empty())
        .collect()
}

#[test]
fn bash_completes_what_the_parser_takes() {
    let commands: Vec<String> = COMMANDS
        .iter()
        .map(|c| c.to_string())
        .chain(["--help".to_string(), "--version".to_string()])
        .collect();
    assert_eq!(completed(&["thymebarrel", ""]), commands);
    assert_eq!(completed(&["thymebarrel", "st"]), ["stream"]);
    for command in COMMANDS {
        let mut offered = completed(&["thymebarrel", command, "--"]);
        assert_eq!(offered.pop().as_deref(), Some("--help"));
        assert_eq!(offered, taken(command), "{command}");
    }
    assert_eq!(completed(&["thymebarrel", "json", "ada.v"]), ["ada.vcf"]);
    assert_eq!(
        completed(&["thymebarrel", "json", "--output", "re"]),
        ["refused"]
    );
    assert_eq!(completed(&["thymebarrel", "json", "--stem", ""]), [""; 0]);
    assert_eq!(
        completed(&["thymebarrel", "generate", ""]),
        ["man", "bash", "zsh", "fish"]
    );
    assert_eq!(completed(&["thymebarrel", "help", "ex"]), ["explain"]);
}

#[test]
fn zsh_and_fish_have_what_the_parser_takes() {
    let zsh = out(&["generate", "zsh"]);
    let fish = out(&["generate", "fish"]);
    for command in COMMANDS {
        assert!(zsh.contains(&format!("    '{command}:")), "{command}");
        let case = format!("    {command}) _arguments ");
        let line = zsh
            .lines()
            .find(|line| line.starts_with(&case))
            .expect(command);
        assert_eq!(options_in(line), taken(command), "{command}");
        let of = format!("__fish_seen_subcommand_from {command}'");
        let lines: Vec<&str> = fish.lines().filter(|line| line.contains(&of)).collect();
        let has = |name: &&&str| {
            lines
                .iter()
                .any(|line| line.contains(&format!(" -l {} ", name.trim_start_matches('-'))))
        };
        let names: Vec<&str> = OPTIONS.iter().map(|(name, _)| *name).collect();
        assert_eq!(
            names.iter().filter(has).copied().collect::<Vec<_>>(),
            taken(command),
            "{command}"
        );
        assert!(
            fish.contains(&format!("-n __fish_use_subcommand -a {command} ")),
            "{command}"
        );
    }
    for (shell, script) in [("zsh", &zsh), ("fish", &fish)] {
        match Command::new(shell).arg("--version").output() {
            Ok(_) => {
                let output = run(
                    Command::new(shell).args(["-n", "/dev/stdin"]),
                    script.as_bytes(),
                );
                assert!(output.status.success(), "{shell}: {}", text(&output.stderr));
            }
            Err(_) => println!("no {shell} here: its completions are held by their text alone"),
        }
    }
    fails(
        &["generate"],
        b"",
        2,
        "generate needs one of man|bash|zsh|fish",
    );
}
