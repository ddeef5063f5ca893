//! The command line.
use crate::antt;
use crate::bytes::{hex, unhex};
use crate::compare;
use crate::gen::{self, Case, Size};
use crate::model::{build, Limits, Outcome, GENEROUS, MAX_CHARGE};
use crate::record;
use crate::reference_side::silence_panics;
use crate::rng::Rng;
use crate::sheets;
use crate::shrink;
use crate::stats::Stats;
use crate::subject::{self, process::Process, stream, Subject};
use std::fs::File;
use std::io::{self, BufReader, BufWriter, Write};

const HELP: &str = "differential/run [SEED [COUNT]] [options]     compares COUNT cases and a third as many files (default: 1 100000)
differential/run files SEED COUNT             compares COUNT files for the reader
differential/run sheets SEED COUNT            compares the check of COUNT sheets
differential/run stream SEED COUNT FILE       writes requests for a program that is run by itself, two for each case: in both ways
differential/run expect REQUESTS REPLIES      writes the replies that the model expects
differential/run judge REQUESTS REPLIES       compares replies with what the model expects
differential/run serve                        answers requests by the model
differential/run case SEED NUMBER             prints a case
differential/run try SHEET SCHEMA [WORK OUT RECORDS]   one case, as hexadecimal digits, in both ways
differential/run read FILE                    one file for the reader, as hexadecimal digits
differential/run record vectors SEED COUNT DIR     cases with their replies, for a program that replays them
differential/run record cases SEED DIR [BUILDS LAWS READS]   cases as theorems, into crates/cases/specs
differential/run bench                        times of both sides
options: --size tiny|small|full   how large cases may be (stream: small, else full)
         --process COMMAND        a program under test instead of the library
         --branches               prints every branch, not only those that were never reached
         --from NUMBER            begins with this case";

pub struct Options {
    pub words: Vec<String>,
    pub size: Option<Size>,
    pub process: Option<String>,
    pub branches: bool,
    /// The first case's number.
    pub from: u64,
}

fn options(args: &[String]) -> Result<Options, String> {
    let mut o = Options { words: Vec::new(), size: None, process: None, branches: false, from: 0 };
    let mut it = args.iter();
    while let Some(w) = it.next() {
        let mut value = || it.next().cloned().ok_or(format!("{w} needs a value"));
        match w.as_str() {
            "--size" => {
                o.size = Some(match value()?.as_str() {
                    "tiny" => Size::Tiny,
                    "small" => Size::Small,
                    "full" => Size::Full,
                    other => return Err(format!("no size {other}")),
                })
            }
            "--process" => o.process = Some(value()?),
            "--branches" => o.branches = true,
            "--from" => o.from = number(&value()?)?,
            _ => o.words.push(w.clone()),
        }
    }
    Ok(o)
}

fn number(s: &str) -> Result<u64, String> {
    s.parse().map_err(|_| format!("{s} is no number"))
}

/// The exit code: 0, 1 on a difference, 2 on a wrong command.
pub fn run(args: &[String]) -> i32 {
    silence_panics();
    match options(args).and_then(|o| command(&o)) {
        Ok(code) => code,
        Err(e) => {
            eprintln!("differential: {e}");
            2
        }
    }
}

/// Says whether all agree.
fn verdict(same: bool) -> Result<i32, String> {
    println!("{}", if same { "no difference" } else { "a difference" });
    Ok(!same as i32)
}

fn command(o: &Options) -> Result<i32, String> {
    let words: Vec<&str> = o.words.iter().map(|s| s.as_str()).collect();
    let io = |e: io::Error| e.to_string();
    match words[..] {
        ["help"] => {
            println!("{HELP}");
            Ok(0)
        }
        ["files", seed, count] => {
            let mut stats = Stats::new();
            let mut subject = announced(o, number(seed)?);
            let same = compare_files(o, number(seed)?, number(count)?, &mut subject, &mut stats);
            stats.print_files();
            verdict(same)
        }
        ["sheets", seed, count] => {
            let mut subject = announced(o, number(seed)?);
            verdict(sheets::compare(number(seed)?, o.from..o.from + number(count)?, &mut subject))
        }
        ["stream", seed, count, path] => write_stream(number(seed)?, number(count)?, o.size.unwrap_or(Size::Small), path).map_err(io).map(|_| 0),
        ["expect", requests, replies] => expect(requests, replies).map_err(io).map(|_| 0),
        ["judge", requests, replies] => judge(requests, replies).map_err(io),
        ["serve"] => serve().map_err(io).map(|_| 0),
        ["try", sheet, schema, ref rest @ ..] => try_case(sheet, schema, rest),
        ["read", file] => try_file(file),
        ["record", "vectors", seed, count, dir] => record::vectors(number(seed)?, number(count)? as usize, dir).map_err(io).map(|_| 0),
        ["record", "cases", seed, dir] => antt::cases(number(seed)?, 320, 60, 80, dir).map_err(io).map(|_| 0),
        ["record", "cases", seed, dir, builds, laws, reads] => {
            let [b, l, r] = [builds, laws, reads].map(|w| number(w).unwrap_or(0) as usize);
            antt::cases(number(seed)?, b, l, r, dir).map_err(io).map(|_| 0)
        }
        ["bench"] => {
            crate::bench::bench();
            Ok(0)
        }
        ["case", seed, n] => print_case(number(seed)?, number(n)?, o.size.unwrap_or(Size::Full)),
        [] => compare_all(o, 1, 100_000),
        [seed] => compare_all(o, number(seed)?, 100_000),
        [seed, count] => compare_all(o, number(seed)?, number(count)?),
        _ => Err(format!("no such command; {HELP}")),
    }
}

/// The charge of small cases: their work areas stay below 1 MB.
const SMALL_CHARGE: u64 = 150_000;

/// Case `number` of a seed, with the model's answer for generous limits and its family.
pub fn case_of(seed: u64, number: u64, size: Size) -> (Case, Outcome, usize) {
    let mut rng = Rng::of(seed, number);
    loop {
        let (family, sheet, schema) = gen::inputs(&mut rng, size);
        let generous = build(false, &sheet, &schema, &GENEROUS);
        if size != Size::Full && generous.charge > SMALL_CHARGE {
            continue;
        }
        let limits = gen::limits::limits(&mut rng, &generous, size);
        return (Case { alone: false, sheet, schema, limits }, generous, family);
    }
}

/// File `number` of a seed.
pub fn file_of(seed: u64, number: u64, size: Size) -> Vec<u8> {
    gen::files::file(&mut Rng::of(seed ^ 0x5EED_F11E, number), size)
}

#[cfg(library)]
fn linked() -> Option<Box<dyn Subject>> {
    Some(Box::new(subject::library::Library))
}

#[cfg(not(library))]
fn linked() -> Option<Box<dyn Subject>> {
    None
}

/// What is under test; says so.
fn announced(o: &Options, seed: u64) -> Option<Box<dyn Subject>> {
    let subject: Option<Box<dyn Subject>> = match &o.process {
        Some(c) => Some(Box::new(Process::new(c))),
        None => linked(),
    };
    match (&o.process, &subject) {
        (Some(c), _) => println!("model, reference and the program `{c}`; seed {seed}"),
        (None, Some(s)) if s.builds() => println!("model, reference and library; seed {seed}"),
        (None, Some(_)) => println!("model and reference, and the library's reader: it doesn't build yet; seed {seed}"),
        (None, None) => println!("model and reference only: there is no library yet; seed {seed}"),
    }
    subject
}

/// Files for the reader; whether all agree.
fn compare_files(o: &Options, seed: u64, count: u64, subject: &mut Option<Box<dyn Subject>>, stats: &mut Stats) -> bool {
    for n in o.from..o.from + count {
        let file = file_of(seed, n, o.size.unwrap_or(Size::Full));
        match compare::read_file(&file, subject, stats) {
            Ok(r) => stats.files[r.err().unwrap_or(0) as usize] += 1,
            Err(e) => {
                println!("DIFFERENCE in file {n} of seed {seed}: {e}");
                let mut fails = |f: &[u8]| compare::read_file(f, subject, &mut Stats::new()).is_err();
                println!("file {}", hex(&shrink::shrink_file(&file, &mut fails)));
                return false;
            }
        }
    }
    true
}

fn compare_all(o: &Options, seed: u64, count: u64) -> Result<i32, String> {
    let size = o.size.unwrap_or(Size::Full);
    let mut subject = announced(o, seed);
    let mut stats = Stats::new();
    for n in o.from..o.from + count {
        let (case, generous, family) = case_of(seed, n, size);
        stats.cases += 1;
        stats.families[family] += 1;
        if let Err(e) = compare::check(&case, &generous, &mut subject, &mut stats) {
            println!("DIFFERENCE in case {n} of seed {seed}: {e}");
            report(&case, &mut subject);
            return Ok(1);
        }
    }
    if !compare_files(o, seed, count / 3, &mut subject, &mut stats) {
        return Ok(1);
    }
    stats.print(o.branches);
    println!("no difference");
    Ok(0)
}

/// Prints the smallest failing case found.
pub fn report(case: &Case, subject: &mut Option<Box<dyn Subject>>) {
    let mut last = String::new();
    let by_itself = |c: &Case, subject: &mut Option<Box<dyn Subject>>| {
        let Some(s) = subject.as_mut().filter(|s| s.builds()) else { return Ok(()) };
        let mut ways = [c.way(false), c.way(true)].into_iter();
        ways.try_for_each(|c| compare::against_subject(&c, &c.within(&c.limits), s.as_mut()))
    };
    // Where a call by itself fails, the other checks are left out.
    let calls = by_itself(case, subject).is_err();
    let mut fails = |c: &Case| {
        let answer = if calls { by_itself(c, subject) } else { compare::check(c, &c.within(&GENEROUS), subject, &mut Stats::new()) };
        answer.map_err(|e| last = e).is_err()
    };
    let small = shrink::shrink(case, &mut fails);
    let l = &small.limits;
    println!("smallest found: {last}");
    println!("sheet {}\nschema {}\nwork {} out {} records {}", hex(&small.sheet), hex(&small.schema), l.work, l.out, l.records);
    print!("expected ");
    show(&small);
}

fn write_stream(seed: u64, count: u64, size: Size, path: &str) -> io::Result<()> {
    let mut out = BufWriter::new(File::create(path)?);
    for n in 0..count {
        let (case, ..) = case_of(seed, n, size);
        stream::put_request(&mut out, &case)?;
        stream::put_request(&mut out, &case.way(true))?;
    }
    out.flush()
}

fn expect(requests: &str, replies: &str) -> io::Result<()> {
    let mut from = BufReader::new(File::open(requests)?);
    let mut out = BufWriter::new(File::create(replies)?);
    while let Some(case) = stream::request(&mut from)? {
        let outcome = case.within(&case.limits);
        stream::put_reply(&mut out, &subject::expected(&outcome))?;
    }
    out.flush()
}

fn judge(requests: &str, replies: &str) -> io::Result<i32> {
    let mut from = BufReader::new(File::open(requests)?);
    let mut given = BufReader::new(File::open(replies)?);
    let mut n = 0;
    let mut codes = [0u64; 19];
    while let Some(case) = stream::request(&mut from)? {
        let outcome = case.within(&case.limits);
        let reply = match stream::reply(&mut given) {
            Ok(r) => r,
            Err(e) => {
                println!("DIFFERENCE: no reply to request {n}: {e}");
                return Ok(1);
            }
        };
        if let Some(d) = subject::difference(&reply, &subject::expected(&outcome)) {
            println!("DIFFERENCE in request {n}: {d}");
            return Ok(1);
        }
        codes[outcome.code() as usize] += 1;
        n += 1;
    }
    println!("{n} replies, no difference; by code {codes:?}");
    Ok(0)
}

/// Answers requests on standard input, as a program under test does.
fn serve() -> io::Result<()> {
    let (mut from, mut out) = (BufReader::new(io::stdin().lock()), BufWriter::new(io::stdout().lock()));
    while let Some(case) = stream::request(&mut from)? {
        let outcome = case.within(&case.limits);
        stream::put_reply(&mut out, &subject::expected(&outcome))?;
        out.flush()?;
    }
    Ok(())
}

/// One case: the model's answer, and the comparison.
fn try_case(sheet: &str, schema: &str, rest: &[&str]) -> Result<i32, String> {
    let bytes = |s: &str| unhex(s).ok_or("no hexadecimal digits".to_string());
    let (sheet, schema) = (bytes(sheet)?, bytes(schema)?);
    let generous = build(false, &sheet, &schema, &GENEROUS);
    let limits = match rest {
        [work, out, records] => Limits { work: number(work)?, out: number(out)?, records: number(records)? },
        _ => Limits { work: gen::limits::work_for(generous.index_entries.unwrap_or(0), MAX_CHARGE), out: 1 << 20, records: 1 << 10 },
    };
    let case = Case { alone: false, sheet, schema, limits };
    println!("model: code {}, charge {}, {} remarks", generous.code(), generous.charge, generous.remarks);
    show(&case);
    let (mut subject, mut stats) = (linked(), Stats::new());
    let answer = compare::check(&case, &generous, &mut subject, &mut stats);
    stats.explained.keys().for_each(|k| println!("intended difference: {k}"));
    println!("{}", answer.as_ref().map_or_else(|e| e.as_str(), |_| "no difference"));
    Ok(answer.is_err() as i32)
}

fn try_file(file: &str) -> Result<i32, String> {
    let file = unhex(file).ok_or("no hexadecimal digits")?;
    let (mut subject, mut stats) = (linked(), Stats::new());
    let answer = compare::read_file(&file, &mut subject, &mut stats);
    stats.explained.keys().for_each(|k| println!("intended difference: {k}"));
    match answer {
        Ok(r) => println!("{r:X?}"),
        Err(e) => {
            println!("{e}");
            return Ok(1);
        }
    }
    Ok(0)
}

/// What the model gives in either way.
fn show(case: &Case) {
    let answers = [false, true].map(|alone| case.way(alone).within(&case.limits).answer);
    for (answer, way) in answers.iter().zip(["", "root alone: "]) {
        match answer {
            Ok(p) => println!("{way}file {}\n{way}remarks {:X?}", hex(&p.file), p.remarks),
            Err(n) => println!("{way}refusal {n}"),
        }
    }
}

fn print_case(seed: u64, n: u64, size: Size) -> Result<i32, String> {
    let (case, generous, family) = case_of(seed, n, size);
    let limited = case.within(&case.limits);
    println!("{}\nsheet {}\nschema {}", gen::FAMILIES[family].name, hex(&case.sheet), hex(&case.schema));
    println!("{:?}\ncode {} with generous limits, {} with these", case.limits, generous.code(), limited.code());
    show(&case);
    Ok(0)
}
