//! `thymebarrel card`: JSON to a card, and lines of JSON, as `stream` writes them, to cards.

use super::batch::{Batch, Input, Trouble};
use super::{Command, Failure};
use crate::arguments::Arguments;
use crate::ndjson::{held, is_line, Held};
use crate::options::{FORCE, KEEP_GOING, OUTPUT, QUIET, SKIP_BOM};
use crate::report::{Again, Report};
use crate::skip_bom::skip_bom;
use std::io::{self, BufRead, Read, Write};
use thymebarrel::{json_to_card, JSON_BYTES};

pub const COMMAND: Command = Command {
    name: "card",
    words: "[FILE..]",
    help: "JSON to a card, or lines of JSON to cards",
    about: "Converts JSContact JSON to a vCard 4.0 card on standard output. FILE may also have a card on each of its lines, as stream writes them: then all of them are \
            converted, one after the other, and lines that tell of a refusal are passed over. With --output each FILE's cards go to a file of that folder, NAME.vcf for NAME.json.",
    options: &[&SKIP_BOM, &OUTPUT, &FORCE, &KEEP_GOING, &QUIET],
    run,
};

/// A line at the most: far more than a card's JSON and what `stream` puts around it.
const LINE: u64 = 1 << 24;

fn run(mut arguments: Arguments) -> Result<(), Failure> {
    let skip = arguments.has(&SKIP_BOM);
    let batch = Batch::read(&mut arguments, &["json", "ndjson", "jsonl"], "vcf")?;
    let mut report = Report::new(arguments.has(&QUIET), Again::Head, batch.is_many());
    let keep_going = batch.keeps_going();
    batch.run(&mut report, |report, input, out| {
        let Input { reader, name } = input;
        let (mut reader, _) = skip_bom(skip, reader).map_err(Trouble::Read)?;
        let mut first = line(&mut reader).map_err(Trouble::Read)?;
        let more = !blank_to_end(&mut reader, &mut first).map_err(Trouble::Read)?;
        match is_line(
            first.split(|b| *b == b'\n').next().unwrap_or_default(),
            more,
        ) {
            true => Lines {
                name,
                keep_going,
                report,
                out,
            }
            .convert(first, reader),
            false => one(first, reader, &name, report, out),
        }
    })?;
    report.end(None)
}

/// The next line, with its line end.
fn line(reader: &mut dyn BufRead) -> io::Result<Vec<u8>> {
    let mut line = Vec::new();
    reader.take(LINE).read_until(b'\n', &mut line)?;
    Ok(line)
}

/// Whether nothing but white space follows; what was read of it is put to the line.
fn blank_to_end(reader: &mut dyn BufRead, read: &mut Vec<u8>) -> io::Result<bool> {
    let start = read.len();
    while read.len() <= start + JSON_BYTES {
        let next = line(reader)?;
        if next.is_empty() {
            return Ok(true);
        }
        read.extend(&next);
        if !next.trim_ascii().is_empty() {
            return Ok(false);
        }
    }
    Ok(true)
}

fn one(
    mut json: Vec<u8>,
    reader: impl Read,
    name: &str,
    report: &mut Report,
    out: &mut dyn Write,
) -> Result<bool, Trouble> {
    // of what is longer only one byte more is read: it is over its room whatever follows
    let most = (JSON_BYTES + 1).saturating_sub(json.len()) as u64;
    reader
        .take(most)
        .read_to_end(&mut json)
        .map_err(Trouble::Read)?;
    match json_to_card(&json) {
        Ok(card) => {
            report.converted(false);
            out.write_all(card.as_bytes()).map_err(Trouble::Write)?;
            Ok(true)
        }
        Err(refusal) => {
            report.refused(name, refusal, &refusal.explain_json(&json));
            Ok(false)
        }
    }
}

struct Lines<'a> {
    name: String,
    keep_going: bool,
    report: &'a mut Report,
    out: &'a mut dyn Write,
}

impl Lines<'_> {
    fn convert(&mut self, first: Vec<u8>, reader: impl BufRead) -> Result<bool, Trouble> {
        self.report.sum_up();
        let mut reader = io::Cursor::new(first).chain(reader);
        let (mut good, mut number, mut passed) = (true, 0, 0);
        loop {
            let line = line(&mut reader).map_err(Trouble::Read)?;
            if line.is_empty() || (!good && !self.keep_going) {
                break;
            }
            number += 1;
            match held(&line) {
                _ if line.trim_ascii().is_empty() => {}
                Held::Refused(_) => passed += 1,
                Held::Card(json) => good &= self.card(number, json)?,
            }
        }
        if passed > 0 {
            let lines = if passed == 1 {
                "1 line tells".to_string()
            } else {
                format!("{passed} lines tell")
            };
            self.report.note(&[format!(
                "{}: {lines} of a card that was refused before; no card is written for it",
                self.name
            )]);
        }
        Ok(good)
    }

    fn card(&mut self, number: usize, json: &[u8]) -> Result<bool, Trouble> {
        match json_to_card(json) {
            Ok(card) => {
                self.report.converted(false);
                self.out
                    .write_all(card.as_bytes())
                    .map_err(Trouble::Write)?;
                Ok(true)
            }
            Err(refusal) => {
                let head = format!("{}: line {number}", self.name);
                self.report
                    .refused(&head, refusal, &refusal.explain_json(json));
                Ok(false)
            }
        }
    }
}
