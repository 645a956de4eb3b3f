//! The command `thymebarrel`: one file of `commands/` for each thing it does.

#![forbid(unsafe_code)]

mod arguments;
mod commands;
mod files;
mod ndjson;
mod options;
mod progress;
mod report;
mod skip_bom;
mod without;

use std::process::ExitCode;

fn main() -> ExitCode {
    let words: Vec<_> = std::env::args_os().skip(1).collect();
    match commands::run(&words) {
        Ok(()) => ExitCode::SUCCESS,
        Err(failure) => failure.tell(),
    }
}
