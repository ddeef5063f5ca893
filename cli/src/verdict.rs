//! What `accept` found, line by line, with the verdict: as text and as JSON.
use crate::arguments::Accept;
use crate::rebuild::Missing;
use crate::schema_check::Faults;
use crate::told::Told;
use crate::words::{commas, count};
use crate::{files, json, output, Stop, DONE, FAILED, USAGE};
use serde::Serialize;
use std::io::{self, Write};

/// What a check found.
pub enum Finding {
    Pass(String),
    Fail(String),
    /// It could not be told.
    Unchecked(String),
}

impl Finding {
    /// The first fault and how many more there are, or what was found.
    pub fn of(found: String, faults: Faults) -> Finding {
        match faults.first {
            None => Finding::Pass(found),
            Some(first) if faults.count == 1 => Finding::Fail(first),
            Some(first) => Finding::Fail(format!("{first}; and {} more", commas(faults.count - 1))),
        }
    }

    /// A check that needs what was not built.
    pub fn missing(why: &Missing) -> Finding {
        match why {
            Missing::Refused(_, text) => Finding::Fail(text.clone()),
            Missing::Unchecked(text) => Finding::Unchecked(text.clone()),
        }
    }
}

/// How a line starts.
#[derive(Clone, Copy, PartialEq, Serialize)]
enum Word {
    #[serde(rename = "pass")]
    Pass,
    #[serde(rename = "fail")]
    Fail,
    #[serde(rename = "not checked")]
    Unchecked,
}

impl Word {
    fn shown(self) -> &'static str {
        match self {
            Word::Pass => "pass",
            Word::Fail => "FAIL",
            Word::Unchecked => "????",
        }
    }
}

#[derive(Serialize)]
struct Line {
    check: &'static str,
    result: Word,
    text: String,
}

/// The lines so far, why there are no more of them, and the remarks of the rebuild.
#[derive(Default)]
pub struct List {
    lines: Vec<Line>,
    end: Option<&'static str>,
    pub remarks: Vec<Told>,
}

#[derive(Serialize)]
struct Json<'a> {
    pack: String,
    sheet: String,
    schema: Option<String>,
    root_alone: bool,
    accepted: bool,
    verdict: String,
    checks: &'a [Line],
    remarks: &'a [Told],
}

impl List {
    pub fn add(&mut self, check: &'static str, finding: Finding) {
        let (result, text) = match finding {
            Finding::Pass(text) => (Word::Pass, text),
            Finding::Fail(text) => (Word::Fail, text),
            Finding::Unchecked(text) => (Word::Unchecked, text),
        };
        self.lines.push(Line { check, result, text });
    }

    /// The file is no pack: there are no more lines.
    pub fn end(&mut self, check: &'static str, why: String) {
        self.add(check, Finding::Fail(why));
        self.end = Some("the rest was not checked: the pack cannot be read");
    }

    fn count(&self, word: Word) -> usize {
        self.lines.iter().filter(|l| l.result == word).count()
    }

    /// 0 accepted, 1 not accepted, 2 it could not be told.
    pub fn status(&self) -> u8 {
        match (self.count(Word::Fail), self.count(Word::Unchecked)) {
            (0, 0) => DONE,
            (0, _) => USAGE,
            _ => FAILED,
        }
    }

    fn verdict(&self, o: &Accept) -> String {
        let checks = count(self.lines.len() as u64, "check");
        match (self.count(Word::Fail), self.count(Word::Unchecked)) {
            (0, 0) if o.schema.is_none() => "accepted, definitions not compared: no --schema".into(),
            (0, 0) => "accepted".into(),
            (0, n) => format!("could not be checked, {n} of {checks} could not be made"),
            (n, _) => format!("not accepted, {n} of {checks} failed"),
        }
    }

    /// Prints the lines, of a quiet list those that did not pass, and the verdict.
    pub fn print(&self, o: &Accept) -> Result<(), Stop> {
        let mut out = output::open()?;
        let result = if o.json { self.write_json(o, &mut out) } else { self.write(o, &mut out) };
        output::written(result.and_then(|()| out.flush()))
    }

    fn write(&self, o: &Accept, out: &mut impl Write) -> io::Result<()> {
        for l in self.lines.iter().filter(|l| !(o.quiet && l.result == Word::Pass)) {
            writeln!(out, "{}  {}: {}", l.result.shown(), l.check, l.text)?;
        }
        if let Some(reason) = self.end {
            writeln!(out, "{reason}")?;
        }
        for r in self.remarks.iter().filter(|_| !o.quiet) {
            writeln!(out, "remark: {}", r.text)?;
        }
        writeln!(out, "{}: {}", files::shown(&o.pack), self.verdict(o))
    }

    fn write_json(&self, o: &Accept, out: &mut impl Write) -> io::Result<()> {
        let object = Json {
            pack: files::shown(&o.pack),
            sheet: files::shown(&o.sheet),
            schema: o.schema.as_deref().map(files::shown),
            root_alone: o.root_alone,
            accepted: self.status() == DONE,
            verdict: self.verdict(o),
            checks: &self.lines,
            remarks: &self.remarks,
        };
        json::write(&object, out)
    }
}
