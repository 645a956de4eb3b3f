//! `thymebarrel generate`: the manual page and the completions of shells, from the table
//! of commands: so they have what the parser takes.

mod bash;
mod fish;
mod man;
mod zsh;

use super::{Command, Failure, ALL};
use crate::arguments::Arguments;
use crate::files;
use crate::options::Opt;

pub const COMMAND: Command = Command {
    name: "generate",
    words: "man|bash|zsh|fish",
    help: "the manual page, or completions of a shell",
    about: "Writes the manual page (thymebarrel generate man > thymebarrel.1), or the completions of a shell: in bash 'source <(thymebarrel generate bash)'; \
            for zsh a file _thymebarrel in a folder of $fpath; for fish ~/.config/fish/completions/thymebarrel.fish.",
    options: &[],
    run,
};

fn run(mut arguments: Arguments) -> Result<(), Failure> {
    let word = arguments.word().unwrap_or_default();
    arguments.end()?;
    let text = match &*word.to_string_lossy() {
        "man" => man::page(),
        "bash" => bash::completions(),
        "zsh" => zsh::completions(),
        "fish" => fish::completions(),
        _ => {
            return Err(Failure::usage(format!(
                "generate needs one of {}",
                COMMAND.words
            )))
        }
    };
    files::write_line(text.trim_end().as_bytes())
}

/// What follows an option, or a command's options.
#[derive(PartialEq)]
enum Value {
    Nothing,
    Folder,
    File,
    Other,
}

fn of_option(option: &Opt) -> Value {
    match option.value {
        None => Value::Nothing,
        Some("DIR") => Value::Folder,
        Some(_) => Value::Other,
    }
}

fn of_command(command: &Command) -> Value {
    match command.words.contains("FILE") {
        true => Value::File,
        false => Value::Other,
    }
}

/// The words, other than files, that may follow a command.
fn choices(command: &Command) -> Vec<&'static str> {
    match command.name {
        "generate" => COMMAND.words.split('|').collect(),
        "help" => ALL.iter().map(|command| command.name).collect(),
        _ => Vec::new(),
    }
}

fn names(options: &[&'static Opt]) -> Vec<&'static str> {
    options
        .iter()
        .map(|option| option.name)
        .chain(["--help"])
        .collect()
}
