//! Completions of fish.

use super::{choices, of_command, of_option, Value};
use crate::commands::{Command, ALL};

pub fn completions() -> String {
    let mut text = String::from("# fish completions of thymebarrel\ncomplete -c thymebarrel -f\n");
    for command in ALL {
        text.push_str(&format!(
            "complete -c thymebarrel -n __fish_use_subcommand -a {} -d '{}'\n",
            command.name,
            plain(command.help)
        ));
    }
    text.push_str(
        "complete -c thymebarrel -n __fish_use_subcommand -l help -d 'what can be typed'\n",
    );
    text.push_str("complete -c thymebarrel -n __fish_use_subcommand -l version -d 'the version'\n");
    text.push_str(&ALL.iter().map(|command| of(command)).collect::<String>());
    text
}

fn of(command: &Command) -> String {
    let start = format!(
        "complete -c thymebarrel -n '__fish_seen_subcommand_from {}'",
        command.name
    );
    let mut text = String::new();
    for option in command.options {
        let after = match of_option(option) {
            Value::Nothing => "",
            Value::Folder => " -x -a '(__fish_complete_directories)'",
            _ => " -x",
        };
        let name = option.name.trim_start_matches('-');
        text.push_str(&format!(
            "{start} -l {name}{after} -d '{}'\n",
            plain(option.help)
        ));
    }
    text.push_str(&format!("{start} -l help -d 'what can be typed'\n"));
    match (of_command(command), choices(command)) {
        (Value::File, _) => text.push_str(&format!("{start} -F\n")),
        (_, choices) if !choices.is_empty() => {
            text.push_str(&format!("{start} -a '{}'\n", choices.join(" ")))
        }
        _ => {}
    }
    text
}

fn plain(text: &str) -> String {
    text.replace('\\', "").replace('\'', "\\'")
}
