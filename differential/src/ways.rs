//! The root always in a new last block: held against the ordinary way, and against the reference.
use crate::bytes::{put_u32, u32_at};
use crate::compare::{one_way, same_answer};
use crate::gen::plan::{Body, Plan};
use crate::gen::Case;
use crate::model::schema::Schema;
use crate::model::state::{Block, Remark, MAX_BLOCKS};
use crate::model::{Limits, Outcome, Pack, GENEROUS, MAX_FILE};
use crate::reference_side::{self as reference, Answer};
use crate::stats::Stats;
use crate::subject::Subject;

/// What the root alone gives beside the ordinary way.
#[derive(Clone, Copy, Debug, PartialEq)]
pub enum Beside {
    /// Ordinary building opened a block for the root too.
    Same,
    /// A PMAP row more.
    Longer,
    /// 4,095 blocks stand already.
    Ten,
    /// The output has no room for the row.
    Thirteen,
    /// No 10: the root has no bytes, and the block of its name ends at 0x100000.
    Built,
    Refused,
}

/// In the order of `Beside`.
pub const BESIDE: [&str; 6] = ["the same pack", "16 bytes more", "10 instead", "13 instead", "no 10", "the same refusal"];

#[derive(Default)]
pub struct Counts {
    pub beside: [u64; BESIDE.len()],
    /// Packs of which the reference has the data and the blocks too: those that are not its pack, those that are.
    pub held: [u64; 2],
    /// Ordinary packs whose root stands at the start of a block that others opened.
    pub at_start: u64,
}

/// All checks of a case with the root alone: `ordinary` has the other way's outcomes, with generous limits and with the
/// case's, `rust` the reference's file.
pub fn check(
    case: &Case, ordinary: [&Outcome; 2], rust: Option<&[u8]>, subject: &mut Option<Box<dyn Subject>>, stats: &mut Stats,
) -> Result<(), String> {
    let [generous, limited] = [GENEROUS, case.limits].map(|l| case.within(&l));
    differ(ordinary[0], &generous, &GENEROUS)?;
    let beside = differ(ordinary[1], &limited, &case.limits)?;
    stats.alone.beside[beside as usize] += 1;
    one_way(case, &generous, &limited, subject, stats)?;
    let Ok(pack) = &generous.answer else { return Ok(()) };
    own_block(case, pack)?;
    // Without an ordinary pack it is 10 that the other way gives: the reference's start wraps.
    let rust = rust.map_or_else(|| built(&case.sheet, &case.schema).map(|b| b.0), |file| Ok(file.to_vec()))?;
    let equal = against_reference(case, &rust, pack)?;
    stats.alone.held[equal as usize] += 1;
    let before = ordinary[0].answer.as_ref().ok();
    if equal != before.is_some_and(Pack::opened) {
        return Err("the reference opened a block for the root, or the model did, not both".into());
    }
    let Some(before) = before else {
        let bytes = pack.items.last().map_or(0, |root| root.bytes.len());
        return if bytes == 0 { Ok(()) } else { Err(format!("a root of {bytes} bytes, and 10 in the ordinary way")) };
    };
    same_layout(before, pack)?;
    if equal {
        return Ok(());
    }
    stats.alone.at_start += u64::from(before.items.last().is_some_and(|root| root.start == 0));
    rebuilds(case, before, pack)
}

/// Where the ways may differ: the block that is added counts for 10, its row for 13, and its start is 0.
pub fn differ(ordinary: &Outcome, alone: &Outcome, limits: &Limits) -> Result<Beside, String> {
    let (o, a) = (ordinary.code(), alone.code());
    let Ok(before) = &ordinary.answer else {
        return match (o, a) {
            (10, 0 | 13) => Ok(Beside::Built),
            (13, 10) => Ok(Beside::Ten),
            _ if o == a => Ok(Beside::Refused),
            _ => Err(format!("{a}, and {o} in the ordinary way")),
        };
    };
    let (length, most) = (before.file.len() as u64, limits.out.min(MAX_FILE));
    let (beside, want) = match before.opened() {
        true => (Beside::Same, 0),
        false if before.blocks.len() == MAX_BLOCKS => (Beside::Ten, 10),
        false if length + 16 > most => (Beside::Thirteen, 13),
        false => (Beside::Longer, 0),
    };
    let same = match &alone.answer {
        Ok(pack) if beside == Beside::Same => pack.file == before.file && pack.remarks == before.remarks,
        Ok(pack) => pack.file.len() as u64 == length + 16 && pack.remarks == before.remarks,
        Err(_) => true,
    };
    match (a == want, same) {
        (true, true) => Ok(beside),
        (true, false) => Err(format!("not the pack that goes with an ordinary one of {length} bytes")),
        _ => Err(format!("{a}, and {want} goes with an ordinary pack of {length} bytes")),
    }
}

/// The root's pointer is its block's number, the number of blocks; it fills the block, which has its type's name.
fn own_block(case: &Case, pack: &Pack) -> Result<(), String> {
    let (root, blocks) = (pack.items.last().ok_or("no root")?, &pack.blocks);
    let name = u32_at(&case.sheet, 12);
    let schema = Schema::read(&case.schema).map_err(|n| format!("the schema is refused with {n}"))?;
    let size = schema.structure(name).ok_or("the root has no definition")?.size as u64;
    let fills = root.bytes.len() as u64 == size && blocks.last() == Some(&Block { name, length: size }) && pack.opened();
    if fills && root.pointer as usize == blocks.len() {
        return Ok(());
    }
    let (pointer, bytes, last) = (root.pointer, root.bytes.len(), blocks.last());
    Err(format!("the root's pointer is {pointer:#x}, it has {bytes} bytes, and the last of {} blocks is {last:?}", blocks.len()))
}

/// The same items, pointers but the root's, uses, charge; the data as long.
fn same_layout(before: &Pack, pack: &Pack) -> Result<(), String> {
    let others = before.items.len() - 1;
    let same = before.items[..others] == pack.items[..pack.items.len() - 1]
        && (before.charge, &before.structures, &before.enums) == (pack.charge, &pack.structures, &pack.enums)
        && before.file[..8] == pack.file[..8];
    if same { Ok(()) } else { Err("items before the root, charge, uses or the data's length differ from the ordinary way's".into()) }
}

/// The reference's file and messages.
fn built(sheet: &[u8], schema: &[u8]) -> Result<(Vec<u8>, Vec<String>), String> {
    let Answer::Gave(definitions) = reference::schema(schema) else { return Err("from_pso doesn't take the schema".into()) };
    match reference::build(&reference::tree(sheet), &definitions) {
        Answer::Gave(built) => Ok(built),
        _ => Err("build_pso doesn't build".into()),
    }
}

/// A name that stands nowhere in sheet and schema.
fn unused(case: &Case) -> u32 {
    let stands = |bytes: &[u8], name: u32| bytes.windows(4).any(|w| w == name.to_be_bytes());
    (0xA10E_0000..).find(|n| !stands(&case.sheet, *n) && !stands(&case.schema, *n)).expect("a name")
}

/// What the reference gives where the root's type has a name that nothing else has, and a copy of its definition: the items
/// before the root are laid as before, and no block has the root's name, so that it opens one behind theirs. Remarks have the
/// type's own name.
fn renamed(case: &Case) -> Result<(Vec<u8>, Vec<Remark>), String> {
    let (own, name) = (u32_at(&case.sheet, 12), unused(case));
    let schema = Schema::read(&case.schema).map_err(|n| format!("the schema is refused with {n}"))?;
    let def = schema.structure(own).ok_or("the root has no definition")?;
    let copy = Plan::of(vec![(name, Body::Structure(def.unknown, def.size, 0, def.members.to_vec()))]).bytes();
    let mut sheet = case.sheet.clone();
    put_u32(&mut sheet, 12, name);
    let (file, messages) = built(&sheet, &[&copy[..], &case.schema].concat()).map_err(|e| format!("{e}, the root under another name"))?;
    let mut remarks = Vec::new();
    for mut r in reference::remarks(&messages)? {
        r.structure = if r.structure == name { own } else { r.structure };
        if !remarks.contains(&r) {
            remarks.push(r);
        }
    }
    Ok((file, remarks))
}

/// The number of blocks, and where PSCH begins.
fn sections(file: &[u8]) -> Result<(usize, usize), String> {
    let Answer::Gave(read) = reference::parse(file) else { return Err("parse_pso refuses the reference's file".into()) };
    let map = u32_at(file, 4) as usize;
    Ok((read.blocks.len(), map + u32_at(file, map + 4) as usize))
}

/// Whether the pack is the reference's, which it is exactly where the reference opened a block for the root: then it has no block
/// more where the root's type has a name of its own. In either case PSIN and PMAP are what it gives for that name, and PSCH
/// what it gives for the type's.
fn against_reference(case: &Case, rust: &[u8], pack: &Pack) -> Result<bool, String> {
    let (file, remarks) = renamed(case)?;
    let (blocks, definitions) = sections(rust)?;
    let (blocks_renamed, end) = sections(&file)?;
    let opened = match blocks_renamed - blocks {
        0 => true,
        1 => false,
        more => return Err(format!("{more} blocks more where the root has a name of its own")),
    };
    let mut want = [&file[..end], &rust[definitions..]].concat();
    put_u32(&mut want, end - 16, u32_at(&case.sheet, 12));
    same_answer(&want, &remarks, pack)?;
    if (rust == pack.file) != opened {
        return Err(format!("the reference opened a block for the root: {opened}; its pack is equal: {}", !opened));
    }
    Ok(opened)
}

/// Either pack as schema file gives each of them, built in its way.
fn rebuilds(case: &Case, before: &Pack, pack: &Pack) -> Result<(), String> {
    for (alone, schema, want) in [(false, pack, before), (true, before, pack)] {
        let other = Case { alone, schema: schema.file.clone(), ..case.clone() };
        if other.within(&GENEROUS).answer.map_or(true, |p| p.file != want.file) {
            return Err("a rebuild from the other way's pack differs".into());
        }
    }
    if built(&case.sheet, &pack.file)?.0 != before.file {
        return Err("the reference's rebuild is not the ordinary pack".into());
    }
    let own = Case { schema: pack.file.clone(), ..case.clone() };
    let again = own.within(&GENEROUS).answer.map_err(|n| format!("the rebuild is refused with {n}"))?;
    against_reference(&own, &before.file, &again).map(|_| ())
}
