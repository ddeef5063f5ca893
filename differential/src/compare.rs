//! One case: model against reference, subject against model, demand 3; in both ways.
use crate::bytes::{hex, push_u32, u32_at};
use crate::gen::Case;
use crate::model::buffer::Leads;
use crate::model::reader::{self, Reading};
use crate::model::number::{f32_of_decimal, i64_of_decimal};
use crate::model::schema::{next_section, Definitions, Schema, PMAP, PSCH, PSIN};
use crate::model::sheet::{Sheet, STR};
use crate::model::state::Remark;
use crate::model::text::{decimal, parses_float, parts, trim};
use crate::model::{Limits, Outcome, Pack, GENEROUS};
use crate::reference_side::{self as reference, Answer};
use crate::stats::Stats;
use crate::subject::{difference, expected, Subject};
use crate::ways;

/// All checks of a case of the ordinary way, and of the same with the root alone; what differs, if anything.
pub fn check(case: &Case, generous: &Outcome, subject: &mut Option<Box<dyn Subject>>, stats: &mut Stats) -> Result<(), String> {
    let rust = against_reference(case, generous, stats).map_err(|e| format!("model and reference: {e}"))?;
    texts(case, generous.code(), stats)?;
    let limited = case.within(&case.limits);
    stats.outcome(generous, &limited);
    one_way(case, generous, &limited, subject, stats)?;
    ways::check(&case.way(true), [generous, &limited], rust.as_deref(), subject, stats).map_err(|e| format!("root alone: {e}"))
}

/// What is checked in either way.
pub fn one_way(case: &Case, generous: &Outcome, limited: &Outcome, subject: &mut Option<Box<dyn Subject>>, stats: &mut Stats) -> Result<(), String> {
    consistent(generous, limited)?;
    if let Some(s) = subject.as_mut().filter(|s| s.builds()) {
        against_subject(case, limited, s.as_mut())?;
        stats.tested[case.alone as usize] += 1;
    }
    if let Ok(pack) = &generous.answer {
        demand3(case, pack, subject, stats).map_err(|e| format!("demand 3: {e}"))?;
        stats.demand3[case.alone as usize] += 1;
    }
    Ok(())
}

pub fn against_subject(case: &Case, outcome: &Outcome, subject: &mut dyn Subject) -> Result<(), String> {
    let reply = subject.build(case)?;
    difference(&reply, &expected(outcome)).map_or(Ok(()), |d| Err(format!("library: {d}")))
}

/// Limits only add 9, 12, 13 and 14.
fn consistent(generous: &Outcome, limited: &Outcome) -> Result<(), String> {
    let (g, l) = (generous.code(), limited.code());
    let same = match (&generous.answer, &limited.answer) {
        (Ok(a), Ok(b)) => a.file == b.file && a.remarks == b.remarks,
        _ => g == l || matches!(l, 9 | 12 | 13 | 14),
    };
    if same { Ok(()) } else { Err(format!("model: {g} with generous limits, {l} with its own")) }
}

/// The grammar of refusal 11, and the values of decimals, against the parse of the standard library; 11 only where a text is refused.
fn texts(case: &Case, code: u32, stats: &mut Stats) -> Result<(), String> {
    let Ok(sheet) = Sheet::read(&case.sheet) else { return Ok(()) };
    let mut refused = false;
    let before = stats.decimals;
    for row in sheet.rows.iter().filter(|r| r.kind == STR) {
        if row.b >= 200 {
            // Too long to be looked at part by part.
            refused = true;
            continue;
        }
        let whole = trim(sheet.text(row));
        let several = parts(whole).filter(|p| *p != whole);
        for t in [whole].into_iter().chain(several) {
            refused |= text(t, stats)?;
        }
    }
    if stats.decimals > before {
        stats.decimal_cases[(code == 0) as usize] += 1;
    }
    if code == 11 && !refused { Err("11, and no text is refused".into()) } else { Ok(()) }
}

/// Whether a text is a float and no decimal.
fn text(t: &[u8], stats: &mut Stats) -> Result<bool, String> {
    let s = std::str::from_utf8(t).unwrap();
    let (single, double) = (s.parse::<f32>(), s.parse::<f64>());
    let (float, found) = (single.is_ok(), decimal(t));
    if float != parses_float(t) || double.is_ok() != float {
        return Err(format!("text {s:?} parses as f32: {single:?}, as f64: {double:?}, model says {}", parses_float(t)));
    }
    stats.texts += 1;
    // What parses and has no letter has a sign, digits and a point at most.
    let short = t.iter().filter(|b| b.is_ascii_digit()).count() <= 9;
    if found.is_some() != (float && short && !t.iter().any(u8::is_ascii_alphabetic)) {
        return Err(format!("text {s:?}: to the model it is {found:?}"));
    }
    let Some(d) = found else { return Ok(float) };
    let (bits, number) = (f32_of_decimal(d), i64_of_decimal(d));
    if single.map(f32::to_bits) != Ok(bits) || double.map(|f| f as i64) != Ok(number) {
        return Err(format!("decimal {s:?}: the model has {bits:#x} and {number}"));
    }
    stats.decimals += 1;
    Ok(false)
}

/// The reference's file, where it builds one.
fn against_reference(case: &Case, outcome: &Outcome, stats: &mut Stats) -> Result<Option<Vec<u8>>, String> {
    let code = outcome.code();
    if code == 1 || code == 2 {
        return Ok(None);
    }
    stats.compared += u64::from(code < 8);
    if code == 3 {
        let tree = reference::tree(&case.sheet);
        return match reference::build(&tree, &Default::default()) {
            Answer::Refused(m) if m.contains("must be a structure") => Ok(None),
            _ => Err("3, and the reference takes the root".into()),
        };
    }
    if (4..=6).contains(&code) {
        return schema_refused(case, code, stats).map(|()| None);
    }
    let schema = match reference::schema(&case.schema) {
        Answer::Gave(s) => s,
        Answer::Refused(m) => return Err(format!("code {code}, and from_pso refuses: {m}")),
        Answer::Panicked => return Err(format!("code {code}, and from_pso panics")),
    };
    if (8..=13).contains(&code) {
        return Ok(None);
    }
    let tree = reference::tree(&case.sheet);
    match (reference::build(&tree, &schema), &outcome.answer) {
        (Answer::Gave((file, messages)), Ok(pack)) => same_pack(&file, &messages, pack).map(|()| Some(file)),
        (Answer::Refused(m), Err(7)) if m.contains("no PSO schema for the root structure") => Ok(None),
        (Answer::Panicked, _) => Err(format!("code {code}, and build_pso panics")),
        (Answer::Refused(m), _) => Err(format!("code {code}, and build_pso refuses: {m}")),
        (Answer::Gave(_), _) => Err(format!("code {code}, and build_pso succeeds")),
    }
}

fn same_pack(file: &[u8], messages: &[String], pack: &Pack) -> Result<(), String> {
    same_answer(file, &reference::remarks(messages)?, pack)
}

/// Whether a pack has this file and these remarks.
pub fn same_answer(file: &[u8], remarks: &[Remark], pack: &Pack) -> Result<(), String> {
    if file != pack.file {
        let at = file.iter().zip(&pack.file).position(|(a, b)| a != b);
        return Err(format!("files differ: {} and {} bytes, first at {at:?}", pack.file.len(), file.len()));
    }
    if remarks != pack.remarks {
        return Err(format!("remarks differ: {:X?} and {:X?}", pack.remarks, remarks));
    }
    Ok(())
}

/// `from_pso` must refuse too; its number is `parse_pso`'s for the same sections.
fn schema_refused(case: &Case, code: u32, stats: &mut Stats) -> Result<(), String> {
    let input = || format!("schema {}", hex(&case.schema));
    match reference::schema(&case.schema) {
        Answer::Gave(_) => return Err(format!("{code}, and from_pso takes the schema")),
        Answer::Panicked if code == 5 => stats.explain("from_pso panics where 5 is given", case.schema.len(), input),
        Answer::Refused(m) if code == 5 && m.contains("unknown schema entry type") => {
            stats.explain("from_pso refuses a top byte where 5 is given", case.schema.len(), input);
        }
        Answer::Refused(m) if reference::reader_number(&m) == Some(code) => {}
        Answer::Refused(m) => return Err(format!("{code}, and from_pso refuses: {m}")),
        Answer::Panicked => return Err(format!("{code}, and from_pso panics")),
    }
    if has_map(&case.schema) {
        return Ok(());
    }
    // A data section and a block list in front make it a file for `parse_pso`.
    let mut file = Vec::new();
    for word in [PSIN, 8, PMAP, 24, 0, 0, 0, 0] {
        push_u32(&mut file, word);
    }
    file.extend_from_slice(&case.schema);
    match reference::parse(&file) {
        Answer::Refused(m) if reference::reader_number(&m) == Some(code) => Ok(()),
        Answer::Panicked if code == 5 => Ok(()),
        Answer::Refused(m) => Err(format!("{code}, and parse_pso refuses: {m}")),
        _ => Err(format!("{code}, and parse_pso doesn't refuse")),
    }
}

fn has_map(file: &[u8]) -> bool {
    let mut at = 0;
    while let Ok(Some((name, section))) = next_section(file, at) {
        if name == PMAP {
            return true;
        }
        at += section.len();
    }
    false
}

/// The file is read, its blocks and items tile it, its definitions are the used ones, and it rebuilds itself.
pub fn demand3(case: &Case, pack: &Pack, subject: &mut Option<Box<dyn Subject>>, stats: &mut Stats) -> Result<(), String> {
    let read = read_file(&pack.file, subject, stats)?.map_err(|n| format!("the reader refuses with {n}"))?;
    let fail = |what: &str| Err(what.to_string());
    if read.data != (0, u32::from_be_bytes(pack.file[4..8].try_into().unwrap()) as usize) {
        return fail("the data section is elsewhere");
    }
    let mut end = 16u64;
    if read.blocks.len() != pack.blocks.len() {
        return fail("number of blocks");
    }
    for (b, laid) in read.blocks.iter().zip(&pack.blocks) {
        if (b.name, b.place as u64, b.length as u64) != (laid.name, end, laid.length) {
            return fail("blocks don't tile the data");
        }
        end += laid.length;
    }
    if end != read.data.1 as u64 {
        return fail("the last block doesn't end with the data");
    }
    let mut ends = vec![0u64; pack.blocks.len()];
    for item in &pack.items {
        let k = item.block as usize - 1;
        let at = read.blocks[k].place as usize + item.start as usize;
        if item.start as u64 != ends[k] || pack.file[at..at + item.bytes.len()] != item.bytes[..] {
            return fail("items don't tile their block");
        }
        ends[k] += item.bytes.len() as u64;
    }
    if ends.iter().zip(&pack.blocks).any(|(e, b)| *e != b.length) {
        return fail("the last item doesn't end its block");
    }
    slots(pack, stats)?;
    let root = pack.items.last().map(|i| i.block);
    if root != Some(read.root) {
        return fail("the root's block");
    }
    let structures: Vec<u32> = read.definitions.structures.iter().map(|s| s.name).collect();
    let enums: Vec<u32> = read.definitions.enums.iter().map(|e| e.name).collect();
    if structures != pack.structures || enums != pack.enums {
        return fail("the definitions are not the used ones");
    }
    rebuild(case, pack, subject, stats)
}

/// Each item but the root is laid for one slot at most, of an item that is laid later. Members that share bytes may
/// put something else over a pointer; how many stay is counted.
fn slots(pack: &Pack, stats: &mut Stats) -> Result<(), String> {
    let mut met = vec![false; pack.items.len()];
    for (k, item) in pack.items.iter().enumerate() {
        for s in &item.slots {
            let Leads::Item(target) = s.leads else { continue };
            let target = target as usize;
            if target >= k || std::mem::replace(&mut met[target], true) {
                return Err("an item has two slots, or one that is laid before it".into());
            }
            stats.slots += 1;
            stats.pointing += u64::from(u32_at(&item.bytes, s.at as usize) == pack.items[target].pointer);
        }
    }
    Ok(())
}

/// Built from its own schema, with no more work and output than the first building needs.
fn rebuild(case: &Case, pack: &Pack, subject: &mut Option<Box<dyn Subject>>, stats: &mut Stats) -> Result<(), String> {
    let own = Case { schema: pack.file.clone(), ..case.clone() };
    let free = own.within(&GENEROUS);
    let again = free.answer.as_ref().map_err(|n| format!("the rebuild is refused with {n}"))?;
    if again.file != pack.file {
        return Err("the rebuilt file differs".into());
    }
    let entries = Schema::read(&case.schema).map_or(0, |s| s.index_entries());
    let work = crate::gen::limits::work_for(entries, pack.charge);
    let limits = Limits { work, out: pack.file.len() as u64, records: again.remarks.len() as u64 };
    let tight = Case { limits, ..own };
    let outcome = tight.within(&limits);
    if outcome.answer.as_ref().map_or(true, |p| p.file != pack.file) {
        return Err(format!("the rebuild with the same lengths gives {}", outcome.code()));
    }
    if !case.alone && again.remarks.len() > pack.remarks.len() {
        stats.explain("the rebuild has more remarks", case.sheet.len() + case.schema.len(), || {
            format!("sheet {} schema {}", hex(&case.sheet), hex(&case.schema))
        });
    }
    if let Some(s) = subject.as_mut().filter(|s| s.builds()) {
        against_subject(&tight, &outcome, s.as_mut()).map_err(|e| format!("rebuild: {e}"))?;
    }
    if case.alone {
        // The reference doesn't build in this way: what it has to say is asked in `ways`.
        return Ok(());
    }
    let tree = reference::tree(&case.sheet);
    match reference::schema(&pack.file) {
        Answer::Gave(schema) => match reference::build(&tree, &schema) {
            Answer::Gave((file, messages)) => same_pack(&file, &messages, again).map_err(|e| format!("rebuild: {e}")),
            _ => Err("the reference refuses the rebuild".into()),
        },
        _ => Err("the reference refuses the file as a schema".into()),
    }
}

/// A file read by the model, the reference and the subject.
pub fn read_file(file: &[u8], subject: &mut Option<Box<dyn Subject>>, stats: &mut Stats) -> Result<Result<Reading, u32>, String> {
    let model = reader::read(file);
    match (reference::parse(file), &model) {
        (Answer::Gave(p), Ok(r)) => same_reading(file, &p, r)?,
        (Answer::Refused(m), Err(n)) if reference::reader_number(&m) == Some(*n) => {}
        (Answer::Panicked, Err(5)) if short_header(file) => {
            stats.explain("parse_pso panics where 5 is given", file.len(), || format!("file {}", hex(file)));
        }
        (Answer::Refused(m), _) => return Err(format!("model {:?}, and parse_pso refuses: {m}", model.as_ref().err())),
        (Answer::Panicked, _) => return Err(format!("model {:?}, and parse_pso panics", model.as_ref().err())),
        (Answer::Gave(_), Err(n)) => return Err(format!("model {n}, and parse_pso succeeds")),
    }
    if let Some(s) = subject.as_mut().filter(|s| s.reads()) {
        subject_reads(file, &model, s.as_mut())?;
        stats.files_tested += 1;
    }
    Ok(model)
}

/// The first definition that lies outside is a structure's header of 4 to 7 bytes.
fn short_header(file: &[u8]) -> bool {
    let mut at = 0;
    while let Ok(Some((name, section))) = next_section(file, at) {
        let mut all = Definitions::default();
        if name == PSCH && all.add(section).is_err() {
            let place = u32_at(section, 16 + 8 * (all.structures.len() + all.enums.len())) as usize;
            return place + 4 <= section.len() && section.len() < place + 8 && section[place] == 0;
        }
        at += section.len();
    }
    false
}

fn same_reading(file: &[u8], p: &::reference::pso::PsoFile, r: &Reading) -> Result<(), String> {
    if p.root_id != r.root || p.data() != &file[r.data.0..r.data.0 + r.data.1] {
        return Err("root or data differ".into());
    }
    let same = |a: &::reference::pso::PsoBlock, b: &reader::FileBlock| (a.name_hash, a.offset, a.length) == (b.name, b.place, b.length);
    if p.blocks.len() != r.blocks.len() || !p.blocks.iter().zip(&r.blocks).all(|(a, b)| same(a, b)) {
        return Err("blocks differ".into());
    }
    for (k, s) in r.definitions.structures.iter().enumerate() {
        let found = p.structs.get(&s.name).ok_or("a structure is missing")?;
        let first = !r.definitions.structures[..k].iter().any(|x| x.name == s.name);
        let members = found.entries.iter().map(|e| (e.name_hash, e.type_byte, e.subtype, e.offset, e.ref_key));
        let ours = s.members.iter().map(|m| (m.name, m.ty, m.subtype, m.offset, m.reference));
        if first && (found.size != s.size || !members.eq(ours)) {
            return Err(format!("structure {:#x} differs", s.name));
        }
    }
    for (k, e) in r.definitions.enums.iter().enumerate() {
        let found = p.enums.get(&e.name).ok_or("an enum is missing")?;
        let first = !r.definitions.enums[..k].iter().any(|x| x.name == e.name);
        if first && !found.entries.iter().map(|(n, v)| (*n, *v as u32)).eq(e.entries.iter().copied()) {
            return Err(format!("enum {:#x} differs", e.name));
        }
    }
    let names = |v: Vec<u32>| v.into_iter().collect::<std::collections::HashSet<_>>().len();
    let d = &r.definitions;
    let ours = (names(d.structures.iter().map(|s| s.name).collect()), names(d.enums.iter().map(|e| e.name).collect()));
    if ours != (p.structs.len(), p.enums.len()) { Err("number of definitions".into()) } else { Ok(()) }
}

fn subject_reads(file: &[u8], model: &Result<Reading, u32>, s: &mut dyn Subject) -> Result<(), String> {
    let read = s.read(file);
    let code = model.as_ref().err().copied().unwrap_or(0);
    if read.code != code {
        return Err(format!("library: reader gives {}, expected {code}", read.code));
    }
    let Ok(r) = model else { return Ok(()) };
    if (read.root, read.data) != (r.root, r.data) || read.blocks != r.blocks {
        return Err("library: root, data or blocks differ".into());
    }
    s.edges(file, r.blocks.len()).map_err(|e| format!("library: {e}"))?;
    let d = &r.definitions;
    let mut names: Vec<u32> = d.structures.iter().map(|x| x.name).chain(d.enums.iter().map(|x| x.name)).collect();
    names.truncate(300);
    names.extend([0, 0x40, 0xFFFF_FFFF]);
    for name in names {
        let (want, want_enum) = (d.structures.iter().find(|x| x.name == name), d.enums.iter().find(|x| x.name == name));
        if s.structure(file, name).as_ref() != want {
            return Err(format!("library: structure {name:#x} differs"));
        }
        if s.enumeration(file, name).as_ref() != want_enum {
            return Err(format!("library: enum {name:#x} differs"));
        }
    }
    Ok(())
}
