//! Recorded vectors: cases with their answers, and files with their readings, for the program `vectors`.
use crate::commands::{case_of, file_of};
use crate::compare::{check, read_file};
use crate::decimals;
use crate::gen::{Case, Size};
use crate::model::Outcome;
use crate::root_alone;
use crate::roads;
use crate::row_numbers;
use crate::select::{choose, Choice};
use crate::stats::Stats;
use crate::ways::{differ, Beside};
use std::fs;
use std::io;
use std::path::Path;

/// How much one recorded case may take.
const SHEET: usize = 1_200;
const SCHEMA: usize = 1_200;
const FILE: usize = 2_000;
const WORK: u64 = 200_000;
/// The records that the program lends.
const RECORDS: u64 = 64;

fn small(case: &Case, outcome: &Outcome) -> bool {
    let length = outcome.answer.as_ref().map_or(0, |p| p.file.len());
    let l = &case.limits;
    case.sheet.len() <= SHEET && case.schema.len() <= SCHEMA && length <= FILE && l.work <= WORK && l.out <= FILE as u64 && l.records <= RECORDS
}

/// Refusal 10 takes a work area of some 4 MB.
fn wide(case: &Case, outcome: &Outcome) -> bool {
    let l = &case.limits;
    outcome.code() == 10 && case.sheet.len() <= SHEET && case.schema.len() <= SCHEMA && l.work <= 4_300_000 && l.out <= FILE as u64 && l.records <= RECORDS
}

/// The cases, and the line that the program writes for each.
struct Recorded {
    input: Vec<u8>,
    lines: String,
    count: usize,
}

impl Recorded {
    /// The length of what is added, nine numbers, then the parts; numbers of 32 bits, big-endian. `way` is said in the line.
    fn add(&mut self, numbers: [u32; 9], parts: &[&[u8]], way: &str, line: String) {
        let length = 40 + parts.iter().map(|p| p.len()).sum::<usize>();
        self.input.extend((length as u32).to_be_bytes());
        self.input.extend(numbers.iter().flat_map(|n| n.to_be_bytes()));
        parts.iter().for_each(|p| self.input.extend_from_slice(p));
        self.lines += &format!("case {}{way}: {line}, same\n", self.count);
        self.count += 1;
    }

    /// Kind 0, or 2 with the root alone; lengths of sheet, schema, work and output, records, code, length, remarks; sheet, schema, file, remarks.
    fn build(&mut self, case: &Case, outcome: &Outcome) {
        let (file, remarks) = outcome.answer.as_ref().map_or((&[][..], &[][..]), |p| (&p.file, &p.remarks));
        let rows: Vec<u8> = remarks.iter().flat_map(|r| [r.kind, r.structure, r.member, r.detail]).flat_map(|n| n.to_be_bytes()).collect();
        let (code, l) = (outcome.code(), &case.limits);
        let lengths = [case.sheet.len() as u32, case.schema.len() as u32, l.work as u32, l.out as u32, l.records as u32];
        let line = format!("code {code}, {} bytes, {} remarks", file.len(), remarks.len());
        let [a, b, w, o, n] = lengths;
        let (kind, way) = if case.alone { (2, ", root alone") } else { (0, "") };
        self.add([kind, a, b, w, o, n, code, file.len() as u32, remarks.len() as u32], &[&case.sheet, &case.schema, file, &rows], way, line);
    }

    /// Kind 1, the file's length, code, root, place and length of the data, blocks; the file.
    fn file(&mut self, file: &[u8], reading: [u32; 5]) {
        let [code, root, place, length, blocks] = reading;
        let line = format!("code {code}, root {root}, {length} bytes at {place}, {blocks} blocks");
        self.add([1, file.len() as u32, code, root, place, length, blocks, 0, 0], &[file], "", line);
    }
}

/// `stdin` and `stdout` of the program: COUNT cases chosen for what they show, four of refusal 10, some with the root alone, a
/// third as many files, and the cases that are the same for every seed.
pub fn vectors(seed: u64, count: usize, dir: &str) -> io::Result<()> {
    let mut all = Recorded { input: Vec::new(), lines: String::new(), count: 0 };
    let mut codes = [0; 19];
    let choice = Choice { seed, size: Size::Small, count, wanted: 2, each: 6 };
    for (case, outcome) in choose(&choice, small).iter().chain(&wides(seed)).chain(&alone(seed)) {
        all.build(case, outcome);
        codes[outcome.code() as usize] += 1;
    }
    println!("{} cases, by code {codes:?}", all.count);
    files(seed, count / 3, &mut all);
    for fixed in [roads::built(), roads::others(), row_numbers::all(), decimals::all(), root_alone::all()].iter().flatten() {
        all.build(&fixed.case, &fixed.case.within(&fixed.case.limits));
    }
    println!("{} cases and files, {} bytes", all.count, all.input.len());
    fs::create_dir_all(dir)?;
    fs::write(Path::new(dir).join("stdin"), &all.input)?;
    fs::write(Path::new(dir).join("stdout"), &all.lines)
}

fn wides(seed: u64) -> Vec<(Case, Outcome)> {
    let mut out = Vec::new();
    for n in 0..400_000 {
        let (case, generous, _) = case_of(seed, n, Size::Full);
        let outcome = case.within(&case.limits);
        if wide(&case, &outcome) {
            check(&case, &generous, &mut None, &mut Stats::new()).unwrap_or_else(|e| panic!("case {n}: {e}"));
            out.push((case, outcome));
        }
        if out.len() == 4 {
            break;
        }
    }
    out
}

/// With the root alone: packs that are 16 bytes longer than the ordinary ones, that find no room for that, that are the same; and
/// each refusal that both ways give, but 10.
fn alone(seed: u64) -> Vec<(Case, Outcome)> {
    let mut out = Vec::new();
    let mut counts = [0; 3];
    let mut refused = [false; 15];
    refused[10] = true;
    for n in 0..400_000 {
        let (case, generous, _) = case_of(seed, n, Size::Small);
        let (ordinary, case) = (case.within(&case.limits), case.way(true));
        let outcome = case.within(&case.limits);
        let code = outcome.code() as usize;
        if !small(&case, &outcome) || case.sheet.len() + case.schema.len() > SHEET {
            continue;
        }
        let wanted = match differ(&ordinary, &outcome, &case.limits) {
            Ok(Beside::Refused) => !std::mem::replace(&mut refused[code], true),
            Ok(Beside::Longer) => more(&mut counts[0], 16),
            Ok(Beside::Thirteen) => more(&mut counts[1], 4),
            Ok(Beside::Same) => more(&mut counts[2], 4),
            _ => false,
        };
        if wanted {
            check(&case.way(false), &generous, &mut None, &mut Stats::new()).unwrap_or_else(|e| panic!("case {n}: {e}"));
            out.push((case, outcome));
        }
        if counts == [16, 4, 4] && refused[1..].iter().all(|r| *r) {
            break;
        }
    }
    out
}

/// Counts one more, where there are fewer than so many.
fn more(count: &mut u32, most: u32) -> bool {
    let wanted = *count < most;
    *count += wanted as u32;
    wanted
}

/// Success and seven refusals, as many of each; each is held against the reference first.
fn files(seed: u64, count: usize, all: &mut Recorded) {
    let share = count / 8;
    let mut codes = [0; 19];
    for n in 0..400_000 {
        let file = file_of(seed, n, Size::Small);
        let read = read_file(&file, &mut None, &mut Stats::new()).unwrap_or_else(|e| panic!("file {n}: {e}"));
        let code = read.as_ref().err().copied().unwrap_or(0);
        if file.len() > FILE || codes[code as usize] >= share {
            continue;
        }
        codes[code as usize] += 1;
        all.file(&file, read.map_or([code, 0, 0, 0, 0], |r| [0, r.root, r.data.0 as u32, r.data.1 as u32, r.blocks.len() as u32]));
    }
    println!("files by code {codes:?}");
}
