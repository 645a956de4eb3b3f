//! Converts standard input to standard output:
//! `convert card STEM NUMBER | home | member NAME | normcard STEM NUMBER | normjson`.

use std::io::{self, Read, Write};
use std::process::ExitCode;
use thymebarrel_baseline::limits::{CARD_BYTES, JSON_BYTES};
use thymebarrel_baseline::*;

const USAGE: &str =
    "usage: convert card STEM NUMBER | home | member NAME | normcard STEM NUMBER | normjson";

fn main() -> ExitCode {
    let arguments: Vec<String> = std::env::args().skip(1).collect();
    let arguments: Vec<&str> = arguments.iter().map(String::as_str).collect();
    let mut input = Vec::new();
    if let Err(error) = io::stdin().read_to_end(&mut input) {
        eprintln!("{error}");
        return ExitCode::FAILURE;
    }
    let Some((answer, ending)) = serve(&arguments, &input) else {
        eprintln!("{USAGE}");
        return ExitCode::FAILURE;
    };
    let printed = match answer.number {
        0 => [&answer.bytes, ending].concat(),
        number => format!("refused {number} at {}\n", answer.place).into_bytes(),
    };
    match io::stdout().write_all(&printed) {
        Ok(()) if answer.number == 0 => ExitCode::SUCCESS,
        _ => ExitCode::FAILURE,
    }
}

/// The answer and what is printed after it: JSON gets one LF, a card has its
/// own line ends. None if the arguments are wrong.
fn serve(arguments: &[&str], input: &[u8]) -> Option<(Answer, &'static [u8])> {
    Some(match arguments {
        ["card", stem, number] => {
            let number = number.parse().ok()?;
            (
                card_to_json(input, stem.as_bytes(), number, JSON_BYTES),
                b"\n",
            )
        }
        ["home"] => (json_to_card(input, CARD_BYTES), b""),
        ["member", name] => (given(look_up(input, name.as_bytes()).to_vec()), b"\n"),
        ["normcard", stem, number] => {
            let number = number.parse().ok()?;
            let answer = card_to_json(input, stem.as_bytes(), number, JSON_BYTES);
            let normal = || normal_card(input, stem.as_bytes(), number);
            (unless_refused(answer, normal), b"")
        }
        ["normjson"] => {
            let answer = json_to_card(input, CARD_BYTES);
            (unless_refused(answer, || normal_json(input)), b"\n")
        }
        _ => return None,
    })
}

fn given(bytes: Vec<u8>) -> Answer {
    Answer {
        number: 0,
        place: 0,
        bytes,
    }
}

/// A normal form is meaningful for accepted inputs only.
fn unless_refused(answer: Answer, normal: impl Fn() -> Vec<u8>) -> Answer {
    match answer.number {
        0 => given(normal()),
        _ => answer,
    }
}
