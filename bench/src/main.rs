//! The proved library beside the baseline, in one run. Run it by `tools/bench`:
//! words choose what is done, `times`, `stack`, `growth`, `plot FILE`, `pieces`.

mod deepest;
mod growth;
mod measure;
#[cfg(feature = "pieces")]
mod pieces;
mod plot;
mod stack;
mod times;
mod workloads;

use std::process::ExitCode;

fn main() -> ExitCode {
    let words: Vec<String> = std::env::args().skip(1).collect();
    let words: Vec<&str> = words.iter().map(String::as_str).collect();
    match &words[..] {
        ["times"] => times::print(),
        ["stack"] => stack::print(),
        ["growth"] => growth::print(),
        #[cfg(feature = "pieces")]
        ["pieces"] => pieces::print(),
        ["plot", file] => {
            if let Err(error) = plot::write(file) {
                eprintln!("{file}: {error}");
                return ExitCode::FAILURE;
            }
        }
        _ => {
            eprintln!("usage: thymebarrel-bench times | stack | growth | plot FILE | pieces");
            return ExitCode::from(2);
        }
    }
    ExitCode::SUCCESS
}
