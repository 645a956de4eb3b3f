//! `thymebarrel member`: the value of a top-level member, as it is spelled.

use super::{Command, Failure};
use crate::arguments::Arguments;
use crate::files;
use crate::options::SKIP_BOM;
use crate::skip_bom::skip_bom;
use std::ffi::OsStr;
use std::io::{self, Read};
use thymebarrel::{json_to_card, member, Reason, JSON_BYTES};

pub const COMMAND: Command = Command {
    name: "member",
    words: "NAME [FILE]",
    help: "the value of a top-level member of JSON",
    about: "Writes the value of the top-level member of that name, as it is spelled in the JSON of FILE.",
    options: &[&SKIP_BOM],
    run,
};

fn run(mut arguments: Arguments) -> Result<(), Failure> {
    let Some(name) = arguments.word() else {
        return Err(Failure::usage("member needs a name".to_string()));
    };
    let file = arguments.word().unwrap_or("-".into());
    arguments.end()?;
    let called = files::name(&file);
    let json = read(&file, arguments.has(&SKIP_BOM))
        .map_err(|error| Failure::file(format!("{called}: {error}")))?;
    match member(&json, name.as_encoded_bytes()) {
        Some(value) => files::write_line(value.as_bytes()),
        None => Err(why_none(&json, &called, &name)),
    }
}

fn read(file: &OsStr, skip: bool) -> io::Result<Vec<u8>> {
    let (reader, _) = skip_bom(skip, files::open(file)?)?;
    let mut json = Vec::new();
    reader.take(JSON_BYTES as u64 + 1).read_to_end(&mut json)?;
    Ok(json)
}

/// No JSON within its room, no object, or no such member.
fn why_none(json: &[u8], file: &str, name: &OsStr) -> Failure {
    let refusal = json_to_card(json).err();
    let not_json = refusal
        .filter(|refusal| refusal.reason() == Some(Reason::NotJson) || json.len() > JSON_BYTES);
    if let Some(refusal) = not_json {
        let mut told = vec![format!("{file}: refused {}", refusal.number)];
        told.extend(refusal.explain_json(json).lines());
        return Failure::refused(told);
    }
    let is_object = json.trim_ascii_start().first() == Some(&b'{');
    let what = match is_object {
        true => format!("no member {}", name.to_string_lossy()),
        false => "this JSON is no object, so it has no members".to_string(),
    };
    Failure::refused(vec![format!("{file}: {what}")])
}
