//! What the command can do. A new one is a file here and a row of `ALL`.

mod batch;
mod card;
mod explain;
mod generate;
mod help;
mod json;
mod member;
mod place;
mod stream;

use crate::arguments::Arguments;
use crate::files;
use crate::options::Opt;
use std::ffi::OsString;
use std::process::ExitCode;
use thymebarrel::printable;

pub struct Command {
    pub name: &'static str,
    /// What follows the options.
    pub words: &'static str,
    /// What it does, in a line.
    pub help: &'static str,
    /// The same at length.
    pub about: &'static str,
    pub options: &'static [&'static Opt],
    pub run: fn(Arguments) -> Result<(), Failure>,
}

const ALL: [&Command; 7] = [
    &json::COMMAND,
    &card::COMMAND,
    &stream::COMMAND,
    &member::COMMAND,
    &explain::COMMAND,
    &generate::COMMAND,
    &help::COMMAND,
];

/// Why it did not all go well: what to say on standard error, and the exit status.
pub struct Failure {
    lines: Vec<String>,
    status: u8,
}

impl Failure {
    /// All was said before.
    pub fn told(status: u8) -> Failure {
        Failure {
            lines: Vec::new(),
            status,
        }
    }

    /// The input is refused. The first line goes on the line of the command's name.
    pub fn refused(lines: Vec<String>) -> Failure {
        Failure { lines, status: 1 }
    }

    pub fn usage(what: String) -> Failure {
        let hint = "thymebarrel --help tells what can be typed".to_string();
        Failure {
            lines: vec![what, hint],
            status: 2,
        }
    }

    /// A file that cannot be read or written.
    pub fn file(what: String) -> Failure {
        Failure {
            lines: vec![what],
            status: 2,
        }
    }

    pub fn tell(self) -> ExitCode {
        say(&self.lines);
        ExitCode::from(self.status)
    }
}

/// Writes to standard error: the command's name and the first line, then the others;
/// no character of a file's name or of a card can move the cursor.
pub fn say(lines: &[String]) {
    for (k, line) in lines.iter().enumerate() {
        let margin = if k == 0 { "thymebarrel: " } else { "  " };
        eprintln!("{margin}{}", printable(line));
    }
}

fn find(name: &str) -> Result<&'static Command, Failure> {
    let found = ALL.into_iter().find(|command| command.name == name);
    found.ok_or_else(|| Failure::usage(format!("no command {name}")))
}

/// Does what was typed.
pub fn run(words: &[OsString]) -> Result<(), Failure> {
    let Some((first, rest)) = words.split_first() else {
        return Err(Failure::usage("what is to be done?".to_string()));
    };
    let first = first.to_string_lossy();
    let asks_help = |word: &OsString| word == "--help" || word == "-h";
    match &*first {
        "--help" | "-h" => return files::write_line(help::whole().as_bytes()),
        "--version" | "-V" => return files::write_line(help::version().as_bytes()),
        _ => {}
    }
    let command = find(&first)?;
    if rest.iter().take_while(|w| *w != "--").any(asks_help) {
        return files::write_line(help::of(command).as_bytes());
    }
    (command.run)(Arguments::read(rest, command.options)?)
}
