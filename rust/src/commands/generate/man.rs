//! The manual page.

use crate::commands::help::{usage, FILES, STATUS, UIDS};
use crate::commands::{Command, ALL};

pub fn page() -> String {
    let mut text = format!(
        ".TH THYMEBARREL 1 \"\" \"thymebarrel {}\" \"User Commands\"\n.SH NAME\nthymebarrel \\- vCard 4.0 to JSContact and back, by a proved library\n.SH SYNOPSIS\n",
        env!("CARGO_PKG_VERSION"),
    );
    for command in ALL {
        text.push_str(&format!(
            ".B thymebarrel {}\n{}\n.br\n",
            command.name,
            escaped(&usage(command))
        ));
    }
    text.push_str(&format!(
        ".SH DESCRIPTION\n{}\n.PP\n{}\n.SH COMMANDS\n",
        escaped(FILES),
        escaped(UIDS)
    ));
    text.push_str(
        &ALL.iter()
            .map(|command| section(command))
            .collect::<String>(),
    );
    text.push_str(&format!(
        ".SH EXIT STATUS\n{}\n",
        escaped(STATUS.trim_start_matches("Exit status: "))
    ));
    text.push_str(".SH EXAMPLES\n");
    for (typed, what) in EXAMPLES {
        text.push_str(&format!(".TP\n.B {}\n{}\n", escaped(typed), escaped(what)));
    }
    text
}

const EXAMPLES: [(&str, &str); 4] = [
    (
        "thymebarrel json card.vcf",
        "The card's JSON on standard output.",
    ),
    (
        "thymebarrel stream --stem shop --keep-going *.vcf > cards.ndjson",
        "All cards of many files, a line each.",
    ),
    (
        "thymebarrel card cards.ndjson > cards.vcf",
        "All of them back.",
    ),
    (
        "thymebarrel json --without PHOTO --output out folder",
        "Each card of a folder to a file, without photos.",
    ),
];

fn section(command: &Command) -> String {
    let mut text = format!(
        ".SS {} {}\n{}\n",
        command.name,
        escaped(&usage(command)),
        escaped(command.about)
    );
    for option in command.options {
        let value = option
            .value
            .map(|value| format!(" \\fI{value}\\fR"))
            .unwrap_or_default();
        text.push_str(&format!(
            ".TP\n\\fB{}\\fR{value}\n{}\n",
            escaped(option.name),
            escaped(option.help)
        ));
    }
    text
}

/// Text as roff reads it: hyphens of options as such, no line that begins with a dot.
fn escaped(text: &str) -> String {
    let text = text.replace('\\', "\\e").replace('-', "\\-");
    match text.starts_with(['.', '\'']) {
        true => format!("\\&{text}"),
        false => text,
    }
}
