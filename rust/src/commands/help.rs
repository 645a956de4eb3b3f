//! `thymebarrel help`: what can be typed, in all or after one command.

use super::{find, Command, Failure, ALL};
use crate::arguments::Arguments;
use crate::files;
use crate::options::Opt;

pub const COMMAND: Command = Command {
    name: "help",
    words: "[COMMAND]",
    help: "this text, or what a command does",
    about: "Says what can be typed, or what a command does and which options it takes.",
    options: &[],
    run,
};

/// Characters of a line at the most.
const WIDTH: usize = 80;

pub const FILES: &str = "FILE is standard input where it is - or left out. Results go to standard output, refusals with their explanations to standard error.";
pub const UIDS: &str = "A card without UID gets a uid made of --stem and its number, and two runs count from 1 each: json of two files gives both reg-1. \
    Give each source its own --stem, count on with --number, or hand all files to one stream.";
pub const STATUS: &str = "Exit status: 0 done; 1 refused, or no such member; 2 bad usage, or a file that cannot be read or written.";

fn run(mut arguments: Arguments) -> Result<(), Failure> {
    let word = arguments.word();
    arguments.end()?;
    let text = match word {
        None => whole(),
        Some(word) => of(find(&word.to_string_lossy())?),
    };
    files::write_line(text.as_bytes())
}

pub fn version() -> String {
    format!("thymebarrel {}", env!("CARGO_PKG_VERSION"))
}

/// `[--stem STEM] [--quiet] [FILE..]`
pub fn usage(command: &Command) -> String {
    let option = |option: &&Opt| match option.value {
        Some(value) => format!("[{} {value}]", option.name),
        None => format!("[{}]", option.name),
    };
    let mut parts: Vec<String> = command.options.iter().map(option).collect();
    parts.push(command.words.to_string());
    parts.join(" ")
}

/// All commands, a line each.
pub fn whole() -> String {
    let mut text = String::from(
        "Converts vCard 4.0 to JSContact and back by a proved library.\n\nthymebarrel\n",
    );
    for command in ALL {
        let typed = format!("{} {}", command.name, command.words);
        text.push_str(&format!("  {typed:<28}{}\n", command.help));
    }
    text.push_str(
        "\nthymebarrel help COMMAND tells the options of a command; --version the version.\n",
    );
    for part in [FILES, UIDS, STATUS] {
        text.push_str(&format!("\n{}\n", wrapped(part, 0)));
    }
    text.trim_end().to_string()
}

/// One command with its options.
pub fn of(command: &Command) -> String {
    let mut text = format!(
        "{}\n\n{}\n",
        wrapped(
            &format!("thymebarrel {} {}", command.name, usage(command)),
            4
        ),
        wrapped(command.about, 0)
    );
    for option in command.options {
        let typed = format!("{} {}", option.name, option.value.unwrap_or_default());
        text.push_str(&format!(
            "\n  {}\n      {}\n",
            typed.trim_end(),
            wrapped(option.help, 6)
        ));
    }
    let files = command.words.contains("FILE").then_some(FILES);
    for part in files.into_iter().chain([STATUS]) {
        text.push_str(&format!("\n{}\n", wrapped(part, 0)));
    }
    text.trim_end().to_string()
}

/// The words in lines of the width; all but the first with this margin.
fn wrapped(text: &str, margin: usize) -> String {
    let mut lines = vec![String::new()];
    for word in text.split_whitespace() {
        let room = WIDTH - margin;
        let line = lines.last_mut().expect("there is one");
        match line.is_empty() || line.chars().count() + 1 + word.chars().count() <= room {
            true => {
                line.push_str(if line.is_empty() { "" } else { " " });
                line.push_str(word);
            }
            false => lines.push(word.to_string()),
        }
    }
    lines.join(&format!("\n{}", " ".repeat(margin)))
}
