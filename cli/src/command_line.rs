//! The commands and their options, with what the help says of them.
use clap::{value_parser, Arg, ArgAction, Command, ValueHint};
use std::ffi::OsString;

const ABOUT: &str = "Packs scenes as PSO files, and reads and checks such files";

const NOTES: &str = "\
A file named - is the standard input, or the standard output for OUT.
An old OUT is replaced only by a whole new one.
Results go to the standard output, messages to the standard error.
Exit status: 0 success, 1 refused or failed, 2 wrong use.
'sandvurek COMMAND --help' tells more of a command.";

const PACK_NOTES: &str = "\
A remark is a fault in the scene that does not stop packing; its line starts with 'remark:'. A line
that starts with 'note:' tells of a value, or a part of one, that is left out without a remark.
A text may stand for a number as a decimal like \"12.5\": a sign or none, one to nine digits, a point or
none. A float is the nearest one to it. An integer, an enum or a flag set takes it without its fraction,
and takes whole numbers of up to 64 bits too. A vector's text has several. Other text that reads as a
floating-point number is refusal 11.
With --root-alone the root gets a new last block, which it fills from its start: for loaders that look
for it there. Where packing opens a block for the root anyway the pack is the same as without it, else it
is 16 bytes longer. The added block counts for refusal 10. 'accept --root-alone' checks such a pack.
With --json one object is printed: \"packs\", a list with an object for each sheet (sheet, pack, code,
message, length, blocks, definitions, remarks, notes), then \"packed\", \"refused\" and \"failed\", how many
sheets are so. code is 0 or the refusal's number, and null where it was not the library that stopped.
Messages are the same as without it.
A scene fails that takes too many steps, as with a schema file made to be slow; --no-limit packs it.
Exit status: 0 all are packed, 1 a sheet was refused or failed (the others are packed), 2 wrong use.";

const READ_NOTES: &str = "\
FILE is a pack, or a schema file: that has no root and no blocks (in JSON null, and an empty list).
A definition that several names share is shown once and then referred to (\"as\" in JSON). Where definitions
lie over one another no more is shown than the file has bytes for; the rest is counted (\"left_out\").
Where the root starts in its block (\"root_start\" in JSON) is shown as far as the size of its structure
tells it: the root is the last item of its block.
Exit status: 0 shown, 1 refused or failed, 2 wrong use.";

const ACCEPT_NOTES: &str = "\
Checked line by line: sections end to end, block list against the data, pointers followed, schema
against scene, rebuild from the pack's own schema; with --schema also a rebuild from that file.
Give --schema: without it definitions cannot be compared with the schema file's.
With --root-alone the rebuilds are done as 'pack --root-alone' does. A pack that was built the other way
is not accepted, and its line says so; one that both ways give is accepted under both.
A line that could not be checked, since the scene takes too many steps, starts with '????'.
Exit status: 0 accepted, 1 not accepted, 2 wrong use, or it could not be checked: a file is missing or
cannot be read, or a line could not be checked and none failed.";

/// A file that stands alone.
fn file(name: &'static str, shown: &'static str, help: &'static str) -> Arg {
    let file = Arg::new(name).value_name(shown).value_parser(value_parser!(OsString)).help(help);
    file.value_hint(ValueHint::FilePath).required(true)
}

/// A file behind an option.
fn file_option(name: &'static str, shown: &'static str, help: &'static str) -> Arg {
    file(name, shown, help).long(name).required(false)
}

/// A number behind an option.
fn number_option(
    name: &'static str,
    shown: &'static str,
    parse: fn(&str) -> Result<usize, String>,
    help: &'static str,
) -> Arg {
    Arg::new(name).long(name).value_name(shown).value_parser(parse).help(help)
}

fn switch(name: &'static str, help: &'static str) -> Arg {
    Arg::new(name).long(name).action(ArgAction::SetTrue).help(help)
}

fn names() -> Arg {
    file_option("names", "FILE", "Names, one a line, which are shown beside their hashes")
}

/// Digits, and K, M or G for units of 1,024.
fn bytes(word: &str) -> Result<usize, String> {
    let unit = match word.bytes().last().map(|b| b.to_ascii_uppercase()) {
        Some(b'K') => 10,
        Some(b'M') => 20,
        Some(b'G') => 30,
        _ => 0,
    };
    let digits = if unit == 0 { word } else { &word[..word.len() - 1] };
    let found = number(digits).ok().and_then(|n| n.checked_mul(1 << unit));
    found.ok_or_else(|| "is not a number of bytes; K, M or G may stand behind it".into())
}

fn number(word: &str) -> Result<usize, String> {
    let digits = Some(word).filter(|s| s.bytes().all(|b| b.is_ascii_digit()));
    digits.and_then(|s| s.parse().ok()).ok_or_else(|| "is not a number".into())
}

const RECORDS: &str = "4096";
const MOST_RECORDS: usize = 16_777_216;

fn records(word: &str) -> Result<usize, String> {
    match number(word)? {
        n if n > MOST_RECORDS => Err(format!("is too many, {MOST_RECORDS} is the most")),
        n => Ok(n),
    }
}

fn pack() -> Command {
    let work = "Length of the work area, 64K or 16M also [default: enough for the largest pack]";
    Command::new("pack").about("Packs value sheets with the definitions of a schema file").after_help(PACK_NOTES).args(
        [
            file("sheets", "SHEET", "Value sheets; each becomes a pack of its own").num_args(1..),
            file_option("schema", "FILE", "PSO file that has the definitions: a schema file or a pack").required(true),
            file_option("output", "OUT", "Where the pack of one sheet goes [default: SHEET's name with .pso]")
                .short('o'),
            number_option("work", "BYTES", bytes, work),
            number_option("records", "N", records, "How many different remarks are taken").default_value(RECORDS),
            switch("root-alone", "The root gets a new last block, which it fills from its start"),
            switch("strict", "A remark fails its sheet: the pack is not written"),
            switch("no-limit", "Packs a scene however many steps it takes"),
            names(),
            switch("json", "Prints what became of the sheets as JSON"),
            switch("quiet", "Says remarks and failures only, no notes").short('q'),
        ],
    )
}

fn read() -> Command {
    Command::new("read").about("Shows a file's sections, root, blocks and definitions").after_help(READ_NOTES).args([
        file("file", "FILE", "PSO file: a pack or a schema file"),
        names(),
        switch("json", "Prints one object as JSON, numbers as numbers"),
    ])
}

fn accept() -> Command {
    Command::new("accept")
        .about("Checks a pack, whoever made it, against the sheet of its scene")
        .after_help(ACCEPT_NOTES)
        .args([
            file("pack", "PACK", "The pack"),
            file_option("sheet", "SHEET", "The sheet of its scene").required(true),
            file_option("schema", "FILE", "The schema file that it was packed with"),
            switch("root-alone", "It was packed with --root-alone: rebuilds it the same way"),
            names(),
            switch("json", "Prints the lines and the verdict as JSON"),
            switch("quiet", "Prints failed lines and the verdict only").short('q'),
        ])
}

fn dump() -> Command {
    Command::new("dump")
        .about("Shows a sheet as a tree, each value with its row")
        .args([file("sheet", "SHEET", "Value sheet"), names()])
}

fn completions() -> Command {
    let shell = Arg::new("shell").value_name("SHELL").value_parser(["bash", "zsh", "fish"]).required(true);
    Command::new("completions").about("Prints the completion file of a shell").arg(shell)
}

/// The whole command line.
pub fn program() -> Command {
    Command::new("sandvurek")
        .version(env!("CARGO_PKG_VERSION"))
        .about(ABOUT)
        .after_help(NOTES)
        .bin_name("sandvurek")
        .subcommand_required(true)
        .subcommands([pack(), read(), accept(), dump(), completions()])
}
