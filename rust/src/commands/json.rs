//! `thymebarrel json`: a card to JSON, or a card in each of several files.

use super::batch::{Batch, Input, Trouble};
use super::{Command, Failure};
use crate::arguments::Arguments;
use crate::options::{
    self, Stem, FORCE, KEEP_GOING, NUMBER, OUTPUT, QUIET, SKIP_BOM, STEM, WITHOUT,
};
use crate::report::{Again, Report};
use crate::skip_bom::skip_bom;
use crate::without::Without;
use std::io::{BufRead, Read, Write};
use thymebarrel::{card_to_json, member};

pub const COMMAND: Command = Command {
    name: "json",
    words: "[FILE..]",
    help: "a card to JSON",
    about: "Converts the one vCard 4.0 card in FILE to JSContact JSON, a line on standard output. With --output each FILE's JSON goes to a file of that folder, \
            NAME.json for NAME.vcf, and the cards count on from --number. Several cards in one file are for stream.",
    options: &[&STEM, &NUMBER, &WITHOUT, &SKIP_BOM, &OUTPUT, &FORCE, &KEEP_GOING, &QUIET],
    run,
};

/// A card that is longer is refused anyhow: so much of it is read, to tell why.
const MOST: u64 = 1 << 24;

struct Json {
    stem: Stem,
    number: usize,
    without: Vec<String>,
    skip_bom: bool,
}

fn run(mut arguments: Arguments) -> Result<(), Failure> {
    let mut json = Json {
        stem: options::stem(&arguments)?,
        number: options::number(&arguments)?,
        without: options::without(&arguments)?,
        skip_bom: arguments.has(&SKIP_BOM),
    };
    let batch = Batch::read(&mut arguments, &["vcf", "vcard"], "json")?;
    let mut report = Report::new(arguments.has(&QUIET), Again::Head, batch.is_many());
    batch.run(&mut report, |report, input, out| {
        json.convert(report, input, out)
    })?;
    report.end(Some(&json.stem))
}

impl Json {
    fn convert(
        &mut self,
        report: &mut Report,
        input: Input,
        out: &mut dyn Write,
    ) -> Result<bool, Trouble> {
        let Input { reader, name } = input;
        let card = self.read(reader, &name, report).map_err(Trouble::Read)?;
        let number = self.number;
        self.number += 1;
        match card_to_json(&self.stem.bytes, number, &card) {
            Ok(json) => {
                report.converted(self.is_made(number, &card, &json));
                writeln!(out, "{json}").map_err(Trouble::Write)?;
                Ok(true)
            }
            Err(refusal) => {
                report.refused(&name, refusal, &refusal.explain_card(&card));
                Ok(false)
            }
        }
    }

    /// The card's bytes, less what is to be left out of them.
    fn read(
        &self,
        reader: Box<dyn BufRead>,
        name: &str,
        report: &mut Report,
    ) -> std::io::Result<Vec<u8>> {
        let (reader, _) = skip_bom(self.skip_bom, reader)?;
        let mut card = Vec::new();
        if self.without.is_empty() {
            reader.take(MOST).read_to_end(&mut card)?;
            return Ok(card);
        }
        let (reader, notes) = Without::new(reader, self.without.clone());
        reader.take(MOST).read_to_end(&mut card)?;
        let names = notes.borrow().names(0, u64::MAX);
        if !names.is_empty() {
            let bytes = notes.borrow().bytes_before(u64::MAX);
            report.note(&[format!(
                "{name}: {} left out, {bytes} bytes; lines are counted without them",
                names.join(", ")
            )]);
        }
        Ok(card)
    }

    /// Whether another number would have made another uid.
    fn is_made(&self, number: usize, card: &[u8], json: &str) -> bool {
        let other = if number == 1 { 2 } else { 1 };
        let other = card_to_json(&self.stem.bytes, other, card);
        other.is_ok_and(|other| member(&other, "uid") != member(json, "uid"))
    }
}
