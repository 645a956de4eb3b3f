//! Refusal 5: at which byte a line leaves the grammar, and how.

const PARAMETERS: usize = 32;
const VALUES: usize = 64;

/// The byte (from 0) and what is wrong there. None where the line is within the grammar.
pub fn fault(line: &[u8]) -> Option<(usize, String)> {
    if line.is_empty() {
        return Some((0, "This line is empty.".to_string()));
    }
    let mut walk = Walk {
        line,
        at: 0,
        parameters: 0,
        values: 0,
    };
    match walk.line() {
        Ok(()) => None,
        Err(what) => Some((walk.at, what)),
    }
}

struct Walk<'a> {
    line: &'a [u8],
    at: usize,
    parameters: usize,
    values: usize,
}

impl Walk<'_> {
    fn next(&self) -> Option<u8> {
        self.line.get(self.at).copied()
    }

    fn line(&mut self) -> Result<(), String> {
        self.name("a name")?;
        let mut start = 0;
        if self.next() == Some(b'.') {
            self.at += 1;
            start = self.at;
            self.name("a name after the group")?;
        }
        self.not_the_frame(start)?;
        while self.next() == Some(b';') {
            self.at += 1;
            self.parameter()?;
        }
        match self.next() {
            Some(b':') => Ok(()),
            other => Err(self.expected("a colon or a semicolon", other)),
        }
    }

    /// The name from there on, which has ended, is not BEGIN or END.
    fn not_the_frame(&mut self, start: usize) -> Result<(), String> {
        let name = &self.line[start..self.at];
        let frame = [b"BEGIN".as_slice(), b"END"];
        let frame = frame.iter().any(|word| name.eq_ignore_ascii_case(word));
        if frame && matches!(self.next(), Some(b';' | b':')) {
            self.at = start;
            return Err("A line within a card may not be named BEGIN or END.".to_string());
        }
        Ok(())
    }

    /// Letters, digits and hyphens, one at least.
    fn name(&mut self, what: &str) -> Result<(), String> {
        let start = self.at;
        while self
            .next()
            .is_some_and(|b| b.is_ascii_alphanumeric() || b == b'-')
        {
            self.at += 1;
        }
        match self.at > start {
            true => Ok(()),
            false => Err(self.expected(what, self.next())),
        }
    }

    fn parameter(&mut self) -> Result<(), String> {
        let start = self.at;
        self.name("a parameter's name")?;
        if self.next() != Some(b'=') {
            let name = String::from_utf8_lossy(&self.line[start..self.at]).into_owned();
            let old = matches!(self.next(), Some(b';' | b':'));
            return Err(match old {
                true => {
                    format!("The parameter {name} has no = and no value: so vCard 2.1 writes it.")
                }
                false => self.expected("= after the parameter's name", self.next()),
            });
        }
        self.parameters += 1;
        if self.parameters > PARAMETERS {
            self.at = start;
            return Err("This line has over 32 parameters.".to_string());
        }
        loop {
            self.at += 1;
            self.value()?;
            if self.next() != Some(b',') {
                return Ok(());
            }
        }
    }

    fn value(&mut self) -> Result<(), String> {
        self.values += 1;
        if self.values > VALUES {
            return Err("This line has over 64 parameter values.".to_string());
        }
        if self.next() == Some(b'"') {
            let start = self.at;
            self.at += 1;
            while self.next().is_some_and(|b| b != b'"') {
                self.at += 1;
            }
            if self.next().is_none() {
                self.at = start;
                return Err("This quote is not closed.".to_string());
            }
            self.at += 1;
            return match self.next() {
                Some(b',' | b';' | b':') => Ok(()),
                other => {
                    Err(self.expected("a comma, semicolon or colon after the closing quote", other))
                }
            };
        }
        while self.next().is_some_and(|b| !b"\";:,".contains(&b)) {
            self.at += 1;
        }
        match self.next() {
            Some(b'"') => Err("A quote may only stand around a whole parameter value.".to_string()),
            _ => Ok(()),
        }
    }

    fn expected(&self, what: &str, next: Option<u8>) -> String {
        match next {
            _ if !self.line.contains(&b':') => "This line has no colon.".to_string(),
            None => format!("The line ends where {what} is expected."),
            Some(b' ' | b'\t') if self.at == 0 => {
                "The line after BEGIN:VCARD begins with a space.".to_string()
            }
            Some(b) if b.is_ascii_graphic() => {
                format!("Here {what} is expected, not {}.", char::from(b))
            }
            Some(_) => format!("Here {what} is expected."),
        }
    }
}
