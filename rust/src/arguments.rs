//! What was typed after a command's name: options with a value and without, and
//! other words.

use crate::commands::Failure;
use crate::options::Opt;
use std::collections::VecDeque;
use std::ffi::{OsStr, OsString};
use std::os::unix::ffi::OsStrExt;

#[derive(Default)]
pub struct Arguments {
    given: Vec<(&'static str, OsString)>,
    words: VecDeque<OsString>,
}

impl Arguments {
    /// Takes the words apart. `--name value` and `--name=value` are the same, all after
    /// `--` are plain words, and so is `-` alone.
    pub fn read(words: &[OsString], options: &[&'static Opt]) -> Result<Arguments, Failure> {
        let mut arguments = Arguments::default();
        let mut rest = words.iter();
        while let Some(word) = rest.next() {
            let bytes = word.as_bytes();
            if bytes == b"--" {
                arguments.words.extend(rest.by_ref().cloned());
            } else if bytes.starts_with(b"-") && bytes.len() > 1 {
                arguments.option(bytes, options, &mut rest)?;
            } else {
                arguments.words.push_back(word.clone());
            }
        }
        Ok(arguments)
    }

    fn option<'a>(
        &mut self,
        word: &[u8],
        options: &[&'static Opt],
        rest: &mut impl Iterator<Item = &'a OsString>,
    ) -> Result<(), Failure> {
        let equals = word.iter().position(|b| *b == b'=');
        let name = String::from_utf8_lossy(&word[..equals.unwrap_or(word.len())]);
        let value = equals.map(|k| OsStr::from_bytes(&word[k + 1..]).to_os_string());
        let Some(known) = options.iter().find(|option| option.name == name) else {
            return Err(Failure::usage(format!("no option {name} here")));
        };
        if self.given.iter().any(|(given, _)| *given == known.name) {
            return Err(Failure::usage(format!("{name} is given twice")));
        }
        let value = match (known.value, value) {
            (None, None) => OsString::new(),
            (None, Some(_)) => return Err(Failure::usage(format!("{name} takes no value"))),
            (Some(_), Some(value)) => value,
            (Some(what), None) => match rest.next() {
                Some(value) => value.clone(),
                None => return Err(Failure::usage(format!("{name} needs a value: {what}"))),
            },
        };
        self.given.push((known.name, value));
        Ok(())
    }

    /// The value of an option, if it was given.
    pub fn value(&self, option: &Opt) -> Option<&OsStr> {
        let given = self.given.iter().find(|(name, _)| *name == option.name)?;
        Some(&given.1)
    }

    /// Whether an option was given.
    pub fn has(&self, option: &Opt) -> bool {
        self.value(option).is_some()
    }

    /// The next plain word, if there is one.
    pub fn word(&mut self) -> Option<OsString> {
        self.words.pop_front()
    }

    /// All the plain words that are left.
    pub fn rest(&mut self) -> Vec<OsString> {
        self.words.drain(..).collect()
    }

    /// There is no further word.
    pub fn end(&self) -> Result<(), Failure> {
        match self.words.front() {
            None => Ok(()),
            Some(word) => Err(Failure::usage(format!(
                "one word too many: {}",
                word.to_string_lossy()
            ))),
        }
    }
}
