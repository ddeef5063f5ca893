//! Cases as theorems that are closed by evaluation, for the crate `cases`.
use crate::commands::{case_of, file_of};
use crate::compare;
use crate::decimals;
use crate::fixed::Fixed;
use crate::gen::limits::work_for;
use crate::gen::{Case, Size};
use crate::model::reader::{self, Reading};
use crate::model::schema::Schema;
use crate::model::state::Remark;
use crate::model::{build, Outcome, Pack, GENEROUS};
use crate::roads;
use crate::root_alone;
use crate::select::{choose, Choice, Shown};
use crate::stats::Stats;
use std::fmt::Write;
use std::path::Path;
use std::{fs, io};

const FILE: usize = 700;
const PER_MADE: usize = 20;
const PER_LAWS: usize = 10;
const PER_READ: usize = 20;

const HEAD: &str = "use Rattle.std.specs.Prelude.{ℕ, ◌≡◌, refl, true, false, List, [], ◌∷◌, ◌++◌}
use Rattle.numbers.specs.Words.{Bytes, words}
use Rattle.numbers.specs.Result.{Result, ok, refused, map_result}
use Rattle.pso.specs.Reader.{Pso, parse_pso}
use Rattle.layout.specs.Build.{Built, layout, build}
use Rattle.layout.specs.Demand3.{read_back}
use Rattle.layout.specs.Eval
use Rattle.cases.specs.Check
";

/// A list of terms.
pub fn list(terms: impl Iterator<Item = String>) -> String {
    let mut s: String = terms.map(|t| t + " ∷ ").collect();
    s.push_str("[]");
    s
}

/// A byte string: words, then the last bytes.
fn bytes(b: &[u8]) -> String {
    let whole = b.len() / 4 * 4;
    let words = list(b[..whole].chunks(4).map(|w| format!("0x{:X}", u32::from_be_bytes(w.try_into().unwrap()))));
    if whole == b.len() {
        return format!("words ({words})");
    }
    format!("words ({words}) ++ ({})", list(b[whole..].iter().map(|x| x.to_string())))
}

fn remarks(r: &[Remark]) -> String {
    list(r.iter().map(|m| format!("record {{ kind = {}; structure = 0x{:X}; member = 0x{:X}; detail = 0x{:X} }}", m.kind, m.structure, m.member, m.detail)))
}

fn define(out: &mut String, name: &str, b: &[u8]) {
    write!(out, "{name} : Bytes\n{name} = {}\n\n", bytes(b)).unwrap();
}

fn made(n: usize, case: &Case, outcome: &Outcome) -> String {
    let mut s = String::new();
    define(&mut s, &format!("T{n}"), &case.sheet);
    define(&mut s, &format!("S{n}"), &case.schema);
    let answer = match &outcome.answer {
        Ok(p) => format!("ok (record {{ file = {}; remarks = {} }})", bytes(&p.file), remarks(&p.remarks)),
        Err(code) => format!("refused {code}"),
    };
    let l = &case.limits;
    write!(s, "case{n} : build {} T{n} S{n} {} {} {} ≡ {answer}\nunfolding Eval.evaluated T{n} S{n}\ncase{n} = refl\n", case.alone, l.work, l.out, l.records).unwrap();
    s
}

/// Read back, tiling and uses, rebuild; work and output as short as the first building allows.
fn laws(n: usize, case: &Case, pack: &Pack, again: &Pack) -> String {
    let mut s = String::new();
    define(&mut s, &format!("T{n}"), &case.sheet);
    define(&mut s, &format!("S{n}"), &case.schema);
    define(&mut s, &format!("F{n}"), &pack.file);
    let entries = Schema::read(&case.schema).map_or(0, |x| x.index_entries());
    let work = work_for(entries, pack.charge);
    let records = pack.remarks.len().max(again.remarks.len());
    let way = case.alone;
    let laid = format!("layout {way} T{n} S{n} {work} {records}");
    write!(s, "reads{n} : parse_pso F{n} ≡ map_result read_back ({laid})\nunfolding Eval.evaluated T{n} S{n} F{n}\nreads{n} = refl\n\n").unwrap();
    write!(s, "holds{n} : map_result Check.holds ({laid}) ≡ ok true\nunfolding Eval.evaluated Check.evaluated T{n} S{n}\nholds{n} = refl\n\n").unwrap();
    let answer = format!("ok (record {{ file = F{n}; remarks = {} }})", remarks(&again.remarks));
    write!(s, "rebuilds{n} : build {way} T{n} F{n} {work} {} {records} ≡ {answer}\nunfolding Eval.evaluated T{n} F{n}\nrebuilds{n} = refl\n", pack.file.len()).unwrap();
    s
}

fn pso(file: &[u8], r: &Reading) -> String {
    let block = |b: &reader::FileBlock| format!("record {{ name = 0x{:X}; place = 0x{:X}; length' = 0x{:X} }}", b.name, b.place, b.length);
    let member = |m: &crate::model::schema::Member| {
        format!("record {{ name = 0x{:X}; type = 0x{:X}; subtype = 0x{:X}; offset = 0x{:X}; reference = 0x{:X} }}", m.name, m.ty, m.subtype, m.offset, m.reference)
    };
    let structure = |s: &crate::model::schema::Structure| {
        format!("record {{ name = 0x{:X}; unknown = {}; size = 0x{:X}; members = {} }}", s.name, s.unknown, s.size, list(s.members.iter().map(member)))
    };
    let entry = |e: &(u32, u32)| format!("(0x{:X}, 0x{:X})", e.0, e.1);
    let enumeration = |e: &crate::model::schema::Enumeration| format!("record {{ name = 0x{:X}; entries = {} }}", e.name, list(e.entries.iter().map(entry)));
    let d = &r.definitions;
    format!(
        "ok (record {{ root = 0x{:X}; data' = {}; blocks = {}; schema = record {{ structs = {}; enums = {} }} }})",
        r.root, bytes(&file[r.data.0..r.data.0 + r.data.1]), list(r.blocks.iter().map(block)), list(d.structures.iter().map(structure)), list(d.enums.iter().map(enumeration))
    )
}

fn read(n: usize, file: &[u8]) -> String {
    let mut s = String::new();
    define(&mut s, &format!("F{n}"), file);
    let answer = match reader::read(file) {
        Ok(r) => pso(file, &r),
        Err(code) => format!("refused {code}"),
    };
    write!(s, "read{n} : parse_pso F{n} ≡ {answer}\nunfolding Eval.evaluated F{n}\nread{n} = refl\n").unwrap();
    s
}

/// Theorems in files of `per`, named NAME00, NAME01, ..
fn write_files(dir: &Path, name: &str, title: &str, per: usize, theorems: &[String], modules: &mut Vec<String>) -> io::Result<()> {
    for (k, part) in theorems.chunks(per).enumerate() {
        let module = format!("{name}{k:02}");
        let (first, last) = (k * per, k * per + part.len() - 1);
        fs::write(dir.join(format!("{module}.antt")), format!("-- {title} {first} to {last}.\n{HEAD}\n{}", part.join("\n")))?;
        modules.push(module);
    }
    Ok(())
}

/// The rebuild has more remarks than the first building, or not.
const MORE: u32 = 200_000;
const SAME: u32 = 200_001;

fn choose_laws(seed: u64, count: usize) -> Vec<String> {
    let mut shown = Shown::new(1);
    let mut out = Vec::new();
    for n in 0..400_000 {
        if out.len() >= count {
            break;
        }
        let (case, generous, _) = case_of(seed, n, Size::Tiny);
        let Ok(pack) = &generous.answer else { continue };
        let again = build(false, &case.sheet, &pack.file, &GENEROUS);
        let Ok(again) = &again.answer else { continue };
        let mut list = generous.hits.features();
        list.push(if again.remarks.len() > pack.remarks.len() { MORE } else { SAME });
        if pack.file.len() <= FILE && shown.take(&list) {
            compare::check(&case, &generous, &mut None, &mut Stats::new()).unwrap_or_else(|e| panic!("case {n}: {e}"));
            out.push(laws(out.len(), &case, pack, again));
        }
    }
    out
}

fn choose_reads(seed: u64, count: usize) -> Vec<String> {
    let mut out = Vec::new();
    let mut codes = [0; 19];
    let (share, good) = (count / 10, count - 7 * (count / 10));
    for n in 0..400_000 {
        if out.len() >= count {
            break;
        }
        let file = file_of(seed, n, Size::Tiny);
        let code = reader::read(&file).err().unwrap_or(0) as usize;
        if file.len() > FILE || codes[code] >= if code == 0 { good } else { share } || (code == 0 && file.len() < 60) {
            continue;
        }
        compare::read_file(&file, &mut None, &mut Stats::new()).unwrap_or_else(|e| panic!("file {n}: {e}")).ok();
        codes[code] += 1;
        out.push(read(out.len(), &file));
    }
    out
}

/// The answer of a case that is the same for every seed.
fn answer((n, f): (usize, &Fixed)) -> String {
    format!("-- {}\n{}", f.what, made(n, &f.case, &f.case.within(&f.case.limits)))
}

/// Demand 3 of a case that is the same for every seed.
fn law((n, f): (usize, &Fixed)) -> String {
    let pack = f.generous.answer.as_ref().expect("built");
    let again = build(f.case.alone, &f.case.sheet, &pack.file, &GENEROUS).answer.expect("held against the reference");
    format!("-- {}\n{}", f.what, laws(n, &f.case, pack, &again))
}

/// Chains past 32 structures, demand 3 on those that are built, decimals as text, and both ways of building.
fn fixed(dir: &Path, modules: &mut Vec<String>) -> io::Result<()> {
    let (built, others) = (roads::built(), roads::others());
    let made: Vec<String> = built.iter().chain(&others).enumerate().map(answer).collect();
    write_files(dir, "Roads", "Roads", PER_MADE, &made, modules)?;
    let laws: Vec<String> = built.iter().enumerate().map(law).collect();
    write_files(dir, "RoadLaws", "Demand 3 on roads", PER_LAWS, &laws, modules)?;
    println!("{} roads, {} of demand 3", made.len(), laws.len());
    let typed: Vec<String> = decimals::all().iter().enumerate().map(answer).collect();
    write_files(dir, "Decimals", "Decimals as text", PER_MADE, &typed, modules)?;
    println!("{} sheets with decimals as text", typed.len());
    let both = root_alone::small();
    let made: Vec<String> = both.iter().enumerate().map(answer).collect();
    write_files(dir, "Ways", "Both ways", PER_MADE, &made, modules)?;
    // Those with a shorter output come last, and give 13.
    let alone = both.iter().filter(|f| f.case.alone && f.case.within(&f.case.limits).code() == 0);
    let laws: Vec<String> = alone.enumerate().map(law).collect();
    write_files(dir, "WayLaws", "Demand 3 with the root alone:", PER_LAWS, &laws, modules)?;
    println!("{} cases of both ways, {} of demand 3", made.len(), laws.len());
    Ok(())
}

/// The names of the files, each with a number behind.
const WRITTEN: [&str; 8] = ["Made", "Laws", "Read", "Roads", "RoadLaws", "Decimals", "Ways", "WayLaws"];

/// Writes the files into the folder `specs` of the crate, and the crate's list of modules.
pub fn cases(seed: u64, builds: usize, laws: usize, reads: usize, dir: &str) -> io::Result<()> {
    let dir = Path::new(dir);
    for f in fs::read_dir(dir)? {
        let path = f?.path();
        let name = path.file_name().unwrap().to_string_lossy().to_string();
        if WRITTEN.iter().any(|p| name.starts_with(p) && name[p.len()..].starts_with(|c: char| c.is_ascii_digit())) {
            fs::remove_file(path)?;
        }
    }
    let choice = Choice { seed, size: Size::Tiny, count: builds, wanted: 1, each: 6 };
    let chosen = choose(&choice, |_, o| o.answer.as_ref().map_or(true, |p| p.file.len() <= FILE));
    let mut codes = [0; 19];
    let mut kinds = [0; 14];
    for (_, o) in &chosen {
        codes[o.code() as usize] += 1;
        let list: Vec<u32> = o.answer.as_ref().map_or(Vec::new(), |p| p.remarks.iter().map(|r| r.kind).collect());
        (1..14).filter(|k| list.contains(k)).for_each(|k| kinds[k as usize] += 1);
    }
    println!("{} cases of building, by code {codes:?}, by remark kind {kinds:?}", chosen.len());
    let mut modules: Vec<String> = ["Check", "Records", "Texts"].map(String::from).to_vec();
    let made: Vec<String> = chosen.iter().enumerate().map(|(n, (c, o))| made(n, c, o)).collect();
    write_files(dir, "Made", "Cases", PER_MADE, &made, &mut modules)?;
    let laws = choose_laws(seed + 1, laws);
    write_files(dir, "Laws", "Demand 3 on cases", PER_LAWS, &laws, &mut modules)?;
    let reads = choose_reads(seed + 2, reads);
    write_files(dir, "Read", "Files for the reader", PER_READ, &reads, &mut modules)?;
    println!("{} of demand 3, {} files for the reader", laws.len(), reads.len());
    fixed(dir, &mut modules)?;
    fs::write(dir.join("Texts.antt"), crate::antt_texts::texts(seed + 3))?;
    let list: String = modules.iter().map(|m| format!("pub mod {m}\n")).collect();
    fs::write(dir.join("Lib.antt"), format!("-- Worked cases, closed by evaluation. {} and Texts are written by\n-- `differential/run record cases {seed} crates/cases/specs`, then `rt tidy`.\n{list}", WRITTEN.join(", ")))
}
