//! What became of the sheets of a call: as messages, and as JSON.
use crate::json;
use crate::library::{self, Built};
use crate::notes::Noted;
use crate::sections::index_entries;
use crate::told::Told;
use crate::words::count;
use crate::{output, say, Stop};
use serde::Serialize;
use std::fs::File;
use std::io::{self, BufWriter, Write};

/// More notes than this are counted.
const MOST_NOTES: usize = 50;

/// One sheet. The code is 0, or the refusal's number, or none where another thing than the library stopped it.
#[derive(Serialize)]
pub struct Report {
    pub sheet: String,
    pub pack: String,
    root_alone: bool,
    pub code: Option<u32>,
    pub message: Option<String>,
    length: Option<usize>,
    blocks: Option<usize>,
    definitions: Option<usize>,
    pub remarks: Vec<Told>,
    pub notes: Vec<Noted>,
}

impl Report {
    pub fn of(sheet: String, pack: String, root_alone: bool) -> Report {
        Report {
            sheet,
            pack,
            root_alone,
            code: None,
            message: None,
            length: None,
            blocks: None,
            definitions: None,
            remarks: Vec::new(),
            notes: Vec::new(),
        }
    }

    /// The pack was written.
    pub fn packed(&mut self, built: &Built) {
        self.code = Some(0);
        self.length = Some(built.file.len());
        self.blocks = Some(library::read(&built.file).blocks);
        self.definitions = Some(index_entries(&built.file));
    }

    /// A line for each remark, then what became of the sheet.
    fn say(&self, quiet: bool) {
        for r in &self.remarks {
            say(&format!("remark: {}: {}", self.sheet, r.text));
        }
        if !quiet {
            self.say_notes();
        }
        let number = |n: Option<usize>, one: &str| count(n.unwrap_or(0) as u64, one);
        if let Some(message) = &self.message {
            say(&format!("sandvurek: {message}"));
        } else if !quiet {
            let (bytes, blocks) = (number(self.length, "byte"), number(self.blocks, "block"));
            let definitions = number(self.definitions, "definition");
            let remarks = count(self.remarks.len() as u64, "remark");
            say(&format!("{}: {bytes}, {blocks}, {definitions}, {remarks}", self.pack));
        }
    }

    /// A line for each note, as many as are read.
    fn say_notes(&self) {
        for n in self.notes.iter().take(MOST_NOTES) {
            say(&format!("note: {}: {}", self.sheet, n.text));
        }
        if let Some(more @ 1..) = self.notes.len().checked_sub(MOST_NOTES) {
            say(&format!("note: {}: and {} more; --json has all", self.sheet, count(more as u64, "note")));
        }
    }
}

/// The reports so far, each told when it comes and not kept.
pub struct Reports {
    quiet: bool,
    json: Option<BufWriter<File>>,
    written: io::Result<()>,
    packed: usize,
    refused: usize,
    failed: usize,
}

impl Reports {
    pub fn open(quiet: bool, json: bool) -> Result<Reports, Stop> {
        let json = if json { Some(output::open()?) } else { None };
        let mut reports = Reports { quiet, json, written: Ok(()), packed: 0, refused: 0, failed: 0 };
        reports.write(|out| write!(out, "{{\n  \"packs\": ["));
        Ok(reports)
    }

    /// Writes JSON where it is wanted. A fault does not stop the packing; it is told at the end.
    fn write(&mut self, write: impl FnOnce(&mut BufWriter<File>) -> io::Result<()>) {
        if let (Some(out), Ok(())) = (&mut self.json, &self.written) {
            self.written = write(out);
        }
    }

    fn count(&self) -> usize {
        self.packed + self.refused + self.failed
    }

    pub fn add(&mut self, report: &Report) {
        report.say(self.quiet);
        let sign = if self.count() == 0 { "" } else { "," };
        self.write(|out| {
            write!(out, "{sign}\n    ")?;
            json::write_item(report, out)
        });
        match report.code {
            Some(0) => self.packed += 1,
            Some(_) => self.refused += 1,
            None => self.failed += 1,
        }
    }

    /// The end of the JSON, and for several sheets a line that counts them.
    pub fn end(mut self) -> Result<(), Stop> {
        let (packed, refused, failed) = (self.packed, self.refused, self.failed);
        self.write(|out| {
            write!(out, "\n  ],\n  \"packed\": {packed},\n  \"refused\": {refused},\n  \"failed\": {failed}\n}}\n")?;
            out.flush()
        });
        if self.count() > 1 && !self.quiet {
            let more = [(refused, "refused"), (failed, "failed")];
            let more = more.iter().filter(|(n, _)| *n > 0).map(|(n, what)| format!(", {n} {what}"));
            say(&format!("{packed} packed{}", more.collect::<String>()));
        }
        output::written(self.written)
    }
}
