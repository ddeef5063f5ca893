//! One line on the terminal while something long runs; none where messages go to a file.
use std::io::{self, IsTerminal, Write};

pub struct Progress {
    on: bool,
    shown: bool,
}

impl Progress {
    pub fn new() -> Progress {
        Progress { on: io::stderr().is_terminal(), shown: false }
    }

    /// Shows a line in place of the last one.
    pub fn show(&mut self, line: &str) {
        if self.on {
            let _ = write!(io::stderr(), "\r{line}\x1b[K");
            self.shown = true;
        }
    }
}

impl Drop for Progress {
    /// The line goes before other messages come.
    fn drop(&mut self) {
        if self.shown {
            let _ = write!(io::stderr(), "\r\x1b[K");
        }
    }
}
