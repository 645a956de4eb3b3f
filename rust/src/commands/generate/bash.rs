//! Completions of bash.

use super::{choices, names, of_command, of_option, Value};
use crate::commands::{Command, ALL};

pub fn completions() -> String {
    let commands: Vec<&str> = ALL.iter().map(|command| command.name).collect();
    let cases: String = ALL.iter().map(|command| case(command)).collect();
    format!(
        r#"# bash completion of thymebarrel
_thymebarrel() {{
  local word=${{COMP_WORDS[COMP_CWORD]}} before=${{COMP_WORDS[COMP_CWORD-1]}} options= words= files=
  COMPREPLY=()
  if [ "$COMP_CWORD" -eq 1 ]; then
    COMPREPLY=($(compgen -W "{} --help --version" -- "$word"))
    return
  fi
  case ${{COMP_WORDS[1]}} in
{cases}  esac
  case $before in
{}  esac
  case $word in
    -*) COMPREPLY=($(compgen -W "$options" -- "$word")) ;;
    *) COMPREPLY=($(compgen -W "$words" -- "$word"))
       [ -z "$files" ] || COMPREPLY+=($(compgen -f -- "$word")) ;;
  esac
}}
complete -o filenames -F _thymebarrel thymebarrel
"#,
        commands.join(" "),
        after_options(),
    )
}

fn case(command: &Command) -> String {
    let files = if of_command(command) == Value::File {
        "yes"
    } else {
        ""
    };
    format!(
        "    {}) options=\"{}\" words=\"{}\" files={files} ;;\n",
        command.name,
        names(command.options).join(" "),
        choices(command).join(" ")
    )
}

/// What completes the word after an option with a value: folders, or nothing.
fn after_options() -> String {
    let mut cases = String::new();
    let mut seen = Vec::new();
    for option in ALL.iter().flat_map(|command| command.options) {
        if of_option(option) == Value::Nothing || seen.contains(&option.name) {
            continue;
        }
        seen.push(option.name);
        let what = match of_option(option) {
            Value::Folder => "COMPREPLY=($(compgen -d -- \"$word\")); return",
            _ => "return",
        };
        cases.push_str(&format!("    {}) {what} ;;\n", option.name));
    }
    cases
}
