//! What was asked for.
use crate::command_line::program;
use crate::Stop;
use clap::error::{ContextKind, ErrorKind};
use clap::ArgMatches;
use clap_complete::Shell;
use std::ffi::{OsStr, OsString};

pub struct Pack {
    pub sheets: Vec<OsString>,
    pub schema: OsString,
    pub out: Option<OsString>,
    pub work: Option<usize>,
    pub records: usize,
    pub root_alone: bool,
    pub strict: bool,
    pub no_limit: bool,
    pub names: Option<OsString>,
    pub json: bool,
    pub quiet: bool,
}

pub struct Read {
    pub file: OsString,
    pub names: Option<OsString>,
    pub json: bool,
}

pub struct Accept {
    pub pack: OsString,
    pub sheet: OsString,
    pub schema: Option<OsString>,
    pub root_alone: bool,
    pub names: Option<OsString>,
    pub json: bool,
    pub quiet: bool,
}

pub struct Dump {
    pub sheet: OsString,
    pub names: Option<OsString>,
}

pub enum Command {
    /// A text to print: help, version, a completion file.
    Text(String),
    Pack(Pack),
    Read(Read),
    Accept(Accept),
    Dump(Dump),
}

/// A file that must be given; clap has seen to it.
fn file(words: &mut ArgMatches, name: &str) -> OsString {
    words.remove_one(name).unwrap_or_default()
}

fn pack(mut words: ArgMatches) -> Pack {
    Pack {
        sheets: words.remove_many("sheets").map(Iterator::collect).unwrap_or_default(),
        schema: file(&mut words, "schema"),
        out: words.remove_one("output"),
        work: words.remove_one("work"),
        records: words.remove_one("records").unwrap_or_default(),
        root_alone: words.get_flag("root-alone"),
        strict: words.get_flag("strict"),
        no_limit: words.get_flag("no-limit"),
        names: words.remove_one("names"),
        json: words.get_flag("json"),
        quiet: words.get_flag("quiet"),
    }
}

fn read(mut words: ArgMatches) -> Read {
    Read { file: file(&mut words, "file"), names: words.remove_one("names"), json: words.get_flag("json") }
}

fn accept(mut words: ArgMatches) -> Accept {
    Accept {
        pack: file(&mut words, "pack"),
        sheet: file(&mut words, "sheet"),
        schema: words.remove_one("schema"),
        root_alone: words.get_flag("root-alone"),
        names: words.remove_one("names"),
        json: words.get_flag("json"),
        quiet: words.get_flag("quiet"),
    }
}

/// The completion file of a shell.
fn completions(words: &ArgMatches) -> String {
    let shell = match words.get_one::<String>("shell").map(String::as_str) {
        Some("zsh") => Shell::Zsh,
        Some("fish") => Shell::Fish,
        _ => Shell::Bash,
    };
    let mut text = Vec::new();
    clap_complete::generate(shell, &mut program(), "sandvurek", &mut text);
    String::from_utf8_lossy(&text).into_owned()
}

/// At most one file is the standard input.
fn one_input<'a>(files: impl IntoIterator<Item = &'a OsString>) -> Result<(), Stop> {
    match files.into_iter().filter(|f| *f == OsStr::new("-")).count() {
        0 | 1 => Ok(()),
        _ => Err(Stop::usage("only one file can be the standard input")),
    }
}

/// The words of a call, the program's name first.
pub fn parse(words: impl Iterator<Item = OsString>) -> Result<Command, Stop> {
    let mut matches = match program().try_get_matches_from(words) {
        Ok(matches) => matches,
        Err(e) if matches!(e.kind(), ErrorKind::DisplayHelp | ErrorKind::DisplayVersion) => {
            return Ok(Command::Text(format!("{}\n", e.render().to_string().trim_end())));
        }
        Err(e) => return Err(Stop::usage(wrong(&e))),
    };
    let (name, mut words) = matches.remove_subcommand().unwrap_or_default();
    match name.as_str() {
        "pack" => {
            let o = pack(words);
            one_input(o.sheets.iter().chain([&o.schema]).chain(&o.names))?;
            Ok(Command::Pack(o))
        }
        "read" => {
            let o = read(words);
            one_input([&o.file].into_iter().chain(&o.names))?;
            Ok(Command::Read(o))
        }
        "accept" => {
            let o = accept(words);
            one_input([&o.pack, &o.sheet].into_iter().chain(&o.schema).chain(&o.names))?;
            Ok(Command::Accept(o))
        }
        "dump" => {
            let o = Dump { sheet: file(&mut words, "sheet"), names: words.remove_one("names") };
            one_input([&o.sheet].into_iter().chain(&o.names))?;
            Ok(Command::Dump(o))
        }
        _ => Ok(Command::Text(completions(&words))),
    }
}

/// Wrong use in words.
fn wrong(e: &clap::Error) -> String {
    let part = |kind: ContextKind| e.get(kind).map(|v| v.to_string()).unwrap_or_default();
    let near = |kind: ContextKind| e.get(kind).map(|v| format!("; {v} is near")).unwrap_or_default();
    let (arg, value) = (part(ContextKind::InvalidArg).replace(['<', '>'], ""), part(ContextKind::InvalidValue));
    match e.kind() {
        ErrorKind::MissingSubcommand => "no command".into(),
        ErrorKind::InvalidSubcommand => {
            let name = part(ContextKind::InvalidSubcommand);
            format!("unknown command '{name}'{}", near(ContextKind::SuggestedSubcommand))
        }
        ErrorKind::MissingRequiredArgument => format!("missing: {arg}"),
        ErrorKind::UnknownArgument if arg.starts_with('-') => {
            format!("unknown option {arg}{}", near(ContextKind::SuggestedArg))
        }
        ErrorKind::UnknownArgument => format!("'{arg}' is one file too many"),
        ErrorKind::ArgumentConflict => format!("{arg} stands twice"),
        ErrorKind::InvalidValue if value.is_empty() => format!("{arg} needs a value"),
        ErrorKind::InvalidValue => format!("{arg}: '{value}' is none of {}", part(ContextKind::ValidValue)),
        ErrorKind::ValueValidation => {
            let reason = std::error::Error::source(e).map(|s| s.to_string()).unwrap_or_default();
            format!("{arg}: '{value}' {reason}")
        }
        ErrorKind::TooManyValues => format!("{arg} takes no value, '{value}' is one"),
        _ => e.to_string().lines().next().unwrap_or_default().trim_start_matches("error: ").into(),
    }
}
