//! The command line: arguments, files and messages. What a pack is, the library decides.
mod accept;
mod arguments;
mod bytes;
mod command_line;
mod definitions;
mod difference;
mod dump;
mod files;
mod jobs;
mod json;
mod library;
mod looks;
mod names;
mod notes;
mod output;
mod pack;
mod places;
mod pointers;
mod progress;
mod read;
mod read_json;
mod rebuild;
mod report;
mod scene;
mod schema_check;
mod sections;
mod sheet;
mod stops;
mod told;
mod verdict;
mod view;
mod words;

use arguments::Command;
use output::print;
use std::io::{self, Write};
use std::process::ExitCode;

/// Everything went well; the input was refused or a file failed; the command was not understood.
pub const DONE: u8 = 0;
pub const FAILED: u8 = 1;
pub const USAGE: u8 = 2;

/// A message for the standard error and the status to end with.
pub struct Stop {
    pub status: u8,
    pub message: String,
    /// Whether the help tells more.
    help: bool,
}

impl Stop {
    pub fn failed(message: impl Into<String>) -> Stop {
        Stop { status: FAILED, message: message.into(), help: false }
    }

    pub fn usage(message: impl Into<String>) -> Stop {
        Stop { status: USAGE, message: message.into(), help: true }
    }

    /// A check that could not be made ends like wrong use.
    pub fn unchecked(self) -> Stop {
        Stop { status: USAGE, ..self }
    }
}

/// A line for the standard error; a closed one is no reason to stop.
pub fn say(line: &str) {
    let _ = writeln!(io::stderr(), "{line}");
}

fn run(command: Command) -> Result<u8, Stop> {
    match command {
        Command::Text(text) => print(&text).map(|()| DONE),
        Command::Pack(o) => pack::run(&o),
        Command::Read(o) => read::run(&o),
        Command::Accept(o) => accept::run(&o),
        Command::Dump(o) => dump::run(&o),
    }
}

fn main() -> ExitCode {
    match arguments::parse(std::env::args_os()).and_then(run) {
        Ok(status) => ExitCode::from(status),
        Err(stop) => {
            say(&format!("sandvurek: {}", stop.message));
            if stop.help {
                say("try: sandvurek --help");
            }
            ExitCode::from(stop.status)
        }
    }
}
