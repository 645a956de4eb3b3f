//! A line on the terminal, twice a second, where the results go elsewhere. The cursor
//! stands below it, at the beginning of a line: so a prompt that comes after Ctrl-C
//! does, too, and how far it came stays above.

use std::io::{self, IsTerminal};
use std::time::{Duration, Instant};

const PAUSE: Duration = Duration::from_millis(500);

pub struct Progress {
    shown: bool,
    next: Option<Instant>,
}

impl Progress {
    pub fn new(quiet: bool) -> Progress {
        let wanted = !quiet && io::stderr().is_terminal() && !io::stdout().is_terminal();
        Progress {
            shown: false,
            next: wanted.then(|| Instant::now() + PAUSE),
        }
    }

    pub fn tell(&mut self, converted: u64, refused: u64) {
        let now = Instant::now();
        if self.next.is_some_and(|next| next <= now) {
            self.clear();
            eprintln!("{converted} converted, {refused} refused");
            self.shown = true;
            self.next = Some(now + PAUSE);
        }
    }

    /// One line up, and all of it away.
    pub fn clear(&mut self) {
        if self.shown {
            eprint!("\x1b[A\r\x1b[K");
            self.shown = false;
        }
    }
}
