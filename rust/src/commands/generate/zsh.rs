//! Completions of zsh.

use super::{choices, of_command, of_option, Value};
use crate::commands::{Command, ALL};
use crate::options::Opt;

pub fn completions() -> String {
    let commands: String = ALL
        .iter()
        .map(|command| format!("    '{}:{}'\n", command.name, plain(command.help)))
        .collect();
    let cases: String = ALL.iter().map(|command| case(command)).collect();
    format!(
        "#compdef thymebarrel\n_thymebarrel() {{\n  local -a commands=(\n{commands}  )\n  if (( CURRENT == 2 )); then\n    _describe command commands\n    return\n  fi\n  \
         local command=$words[2]\n  shift words\n  (( CURRENT-- ))\n  case $command in\n{cases}  esac\n}}\n_thymebarrel \"$@\"\n"
    )
}

fn case(command: &Command) -> String {
    let mut parts: Vec<String> = command
        .options
        .iter()
        .map(|option| argument(option))
        .collect();
    parts.push("'--help[what can be typed]'".to_string());
    parts.push(match (of_command(command), choices(command)) {
        (Value::File, _) => "'*:file:_files'".to_string(),
        (_, choices) => format!("'1:word:({})'", choices.join(" ")),
    });
    format!("    {}) _arguments {} ;;\n", command.name, parts.join(" "))
}

fn argument(option: &Opt) -> String {
    let after = match (of_option(option), option.value) {
        (Value::Folder, Some(value)) => format!(":{value}:_files -/"),
        (_, Some(value)) => format!(":{value}: "),
        _ => String::new(),
    };
    let equals = if option.value.is_some() { "=" } else { "" };
    format!("'{}{equals}[{}]{after}'", option.name, plain(option.help))
}

/// Words without what zsh would read as its own.
fn plain(text: &str) -> String {
    let first = text.split([':', ';']).next().unwrap_or(text);
    first.replace(['\'', '[', ']'], "")
}
