//! The options, each with its words for the help, the manual and the completions, and
//! what is read from them.

use crate::arguments::Arguments;
use crate::commands::Failure;
use thymebarrel::{LAST_NUMBER, STEM_BYTES};

/// An option; `value` names what follows it, where something does.
pub struct Opt {
    pub name: &'static str,
    pub value: Option<&'static str>,
    pub help: &'static str,
}

const fn flag(name: &'static str, help: &'static str) -> Opt {
    Opt {
        name,
        value: None,
        help,
    }
}

const fn valued(name: &'static str, value: &'static str, help: &'static str) -> Opt {
    Opt {
        name,
        value: Some(value),
        help,
    }
}

pub const STEM: Opt = valued(
    "--stem",
    "STEM",
    "with the card's number, makes the uid of a card without UID: STEM-N. 1 to 200 of A-Z a-z 0-9 : - _; reg where it is left out, so that two runs make the same uids",
);
pub const NUMBER: Opt = valued("--number", "N", "the number of the first card, from which further ones count on: 1 to 999999; 1 where it is left out");
pub const KEEP_GOING: Opt = flag(
    "--keep-going",
    "do not end at the first card that is refused, or the first file that cannot be read",
);
pub const SKIP_BOM: Opt = flag(
    "--skip-bom",
    "take a byte order mark at the beginning of a file away",
);
pub const WITHOUT: Opt = valued(
    "--without",
    "NAMES",
    "leave out lines of these names before the card is read, and tell so: --without PHOTO,KEY; lines are then counted without them",
);
pub const OUTPUT: Opt = valued(
    "--output",
    "DIR",
    "write a file into this folder for each FILE; a FILE may then be a folder",
);
pub const FORCE: Opt = flag("--force", "write over files that are there already");
pub const QUIET: Opt = flag(
    "--quiet",
    "say nothing of refusals and made uids; the exit status tells",
);

/// The stem where none is given.
const DEFAULT_STEM: &str = "reg";

/// What makes uids, and whether the user chose it.
pub struct Stem {
    pub bytes: Vec<u8>,
    pub is_default: bool,
}

pub fn stem(arguments: &Arguments) -> Result<Stem, Failure> {
    let Some(given) = arguments.value(&STEM) else {
        return Ok(Stem {
            bytes: DEFAULT_STEM.into(),
            is_default: true,
        });
    };
    let bytes = given.as_encoded_bytes().to_vec();
    let of_stem = |b: &u8| b.is_ascii_alphanumeric() || b":-_".contains(b);
    if bytes.is_empty() || bytes.len() > STEM_BYTES || !bytes.iter().all(of_stem) {
        let given = given.to_string_lossy();
        return Err(Failure::usage(format!(
            "--stem {given} is not 1 to {STEM_BYTES} characters of A-Z a-z 0-9 : - _"
        )));
    }
    Ok(Stem {
        bytes,
        is_default: false,
    })
}

pub fn number(arguments: &Arguments) -> Result<usize, Failure> {
    let Some(given) = arguments.value(&NUMBER) else {
        return Ok(1);
    };
    let given = given.to_string_lossy();
    match given.parse() {
        Ok(number) if (1..=LAST_NUMBER).contains(&number) => Ok(number),
        _ => Err(Failure::usage(format!(
            "--number {given} is not 1 to {LAST_NUMBER}"
        ))),
    }
}

/// The names of `--without`, in capitals.
pub fn without(arguments: &Arguments) -> Result<Vec<String>, Failure> {
    let Some(given) = arguments.value(&WITHOUT) else {
        return Ok(Vec::new());
    };
    let given = given.to_string_lossy().to_ascii_uppercase();
    let names: Vec<String> = given.split(',').map(str::to_string).collect();
    let of_name = |name: &String| {
        !name.is_empty() && name.bytes().all(|b| b.is_ascii_alphanumeric() || b == b'-')
    };
    let needed = |name: &String| ["BEGIN", "END", "VERSION"].contains(&name.as_str());
    match names.iter().find(|name| !of_name(name) || needed(name)) {
        Some(name) => Err(Failure::usage(format!(
            "--without {name}: no line of that name can be left out"
        ))),
        None => Ok(names),
    }
}
