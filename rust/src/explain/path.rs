//! Where in JSON a member stands.

use super::shown;
use std::fmt;

/// One step down: into an object by name, or into an array by index.
#[derive(Debug, Clone, PartialEq, Eq)]
pub enum Step {
    Name(String),
    Index(usize),
}

/// The way from the whole down to a member.
#[derive(Debug, Clone, Default, PartialEq, Eq)]
pub struct Path(Vec<Step>);

impl Path {
    pub fn name(&self, name: &str) -> Path {
        self.step(Step::Name(name.to_string()))
    }

    pub fn index(&self, index: usize) -> Path {
        self.step(Step::Index(index))
    }

    fn step(&self, step: Step) -> Path {
        let mut steps = self.0.clone();
        steps.push(step);
        Path(steps)
    }

    /// As RFC 6901 has it.
    pub fn pointer(&self) -> String {
        let part = |step: &Step| match step {
            Step::Name(name) => format!("/{}", name.replace('~', "~0").replace('/', "~1")),
            Step::Index(index) => format!("/{index}"),
        };
        self.0.iter().map(part).collect()
    }
}

/// `emails.EMAIL-1.label`, `vCardProps[2]`; other names in quotes.
impl fmt::Display for Path {
    fn fmt(&self, f: &mut fmt::Formatter<'_>) -> fmt::Result {
        if self.0.is_empty() {
            return write!(f, "the JSON");
        }
        for (k, step) in self.0.iter().enumerate() {
            match step {
                Step::Index(index) => write!(f, "[{index}]")?,
                Step::Name(name) => {
                    let dot = if k > 0 { "." } else { "" };
                    let plain = |c: char| c.is_ascii_alphanumeric() || "@_-:".contains(c);
                    match !name.is_empty() && name.len() <= 60 && name.chars().all(plain) {
                        true => write!(f, "{dot}{name}")?,
                        false => write!(f, "{dot}{}", shown::quoted(name))?,
                    }
                }
            }
        }
        Ok(())
    }
}

/// What is wrong with a member.
#[derive(Debug, Clone, PartialEq, Eq)]
pub struct Fault {
    pub path: Path,
    pub what: String,
}

impl Fault {
    pub fn at(path: Path, what: impl Into<String>) -> Fault {
        let what = what.into();
        Fault { path, what }
    }

    /// What goes before `what`: `version` before `is "2.0"`, `emails.k.label:` before
    /// `no member of ..`.
    pub fn place(&self) -> String {
        let verb = ["is ", "has "]
            .iter()
            .any(|word| self.what.starts_with(word));
        format!("{}{}", self.path, if verb { "" } else { ":" })
    }
}
