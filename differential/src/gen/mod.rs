//! Cases by seed.
pub mod chain;
pub mod damage;
pub mod decimal;
pub mod edges;
pub mod files;
pub mod heavy;
pub mod limits;
pub mod plan;
pub mod road;
pub mod root;
pub mod schema;
pub mod sheets;
pub mod text;
pub mod tree;
pub mod value;

use crate::model::schema::Schema;
use crate::model::{build, Limits, Outcome};
use crate::rng::Rng;
use plan::Plan;
use schema::Mood;
use tree::Tree;
use value::{Habit, Values};

/// A call of building; alone, the root gets a new last block.
#[derive(Clone, Debug, PartialEq)]
pub struct Case {
    pub alone: bool,
    pub sheet: Vec<u8>,
    pub schema: Vec<u8>,
    pub limits: Limits,
}

impl Case {
    /// The model's answer with these limits.
    pub fn within(&self, limits: &Limits) -> Outcome {
        build(self.alone, &self.sheet, &self.schema, limits)
    }

    /// The same, built in this way.
    pub fn way(&self, alone: bool) -> Case {
        Case { alone, ..self.clone() }
    }
}

/// How large cases may be.
#[derive(Clone, Copy, Debug, PartialEq)]
pub enum Size {
    /// For theorems: a sheet of 420 bytes at most, a schema of 600.
    Tiny,
    /// No case above about 64 KB, no work area above 1 MB.
    Small,
    Full,
}

pub struct Family {
    pub name: &'static str,
    /// Its share of the cases.
    pub weight: usize,
    size: Size,
    make: fn(&mut Rng, Size) -> (Vec<u8>, Vec<u8>),
}

const fn family(name: &'static str, weight: usize, size: Size, make: fn(&mut Rng, Size) -> (Vec<u8>, Vec<u8>)) -> Family {
    Family { name, weight, size, make }
}

pub const FAMILIES: [Family; 23] = [
    family("general", 58_000, Size::Tiny, general),
    family("scalars and texts", 10_000, Size::Tiny, scalars),
    family("decimals", 8_000, Size::Tiny, decimal::decimals),
    family("chains of structures", 5_000, Size::Tiny, chain::chain),
    family("roads", 3_000, Size::Full, road::road),
    family("root's own name", 6_000, Size::Tiny, root::own_name),
    family("levels of the sheet", 800, Size::Small, chain::levels),
    family("damaged sheet", 5_000, Size::Tiny, damaged_sheet),
    family("edges of rows", 6_000, Size::Tiny, edges::row_edges),
    family("damaged schema", 5_000, Size::Tiny, damaged_schema),
    family("edges of schemas", 5_000, Size::Tiny, edges::schema_edges),
    family("edges of sizes", 2_000, Size::Tiny, edges::size_edges),
    family("noise", 500, Size::Tiny, noise),
    family("long runs", 1_000, Size::Small, heavy::long_runs),
    family("some remarks", 500, Size::Small, heavy::some_remarks),
    family("many remarks", 150, Size::Full, heavy::many_remarks),
    family("wide structures", 200, Size::Full, edges::wide_structures),
    family("full blocks", 250, Size::Full, heavy::full_blocks),
    family("many blocks", 50, Size::Full, heavy::many_blocks),
    family("full charge", 50, Size::Full, edges::full_charge),
    family("long texts", 200, Size::Full, heavy::long_texts),
    family("large sheets", 100, Size::Full, heavy::large_sheets),
    family("long files", 5, Size::Full, heavy::long_files),
];

fn fits(family: &Family, size: Size) -> bool {
    family.size as usize <= size as usize
}

/// Sheet and schema of case `number`, and its family.
pub fn inputs(rng: &mut Rng, size: Size) -> (usize, Vec<u8>, Vec<u8>) {
    let weights: Vec<usize> = FAMILIES.iter().map(|f| if fits(f, size) { f.weight } else { 0 }).collect();
    loop {
        let k = rng.weighted(&weights);
        let (sheet, schema) = (FAMILIES[k].make)(rng, size);
        let small = match size {
            Size::Tiny => sheet.len() <= 420 && schema.len() <= 600,
            Size::Small => sheet.len() <= 65_536 && schema.len() <= 65_536,
            Size::Full => true,
        };
        if small {
            return (k, sheet, schema);
        }
    }
}

fn mood(rng: &mut Rng, size: Size) -> Mood {
    let odd = *rng.pick(&[0, 0, 3, 8, 15, 30, 60]);
    if size == Size::Tiny {
        return Mood { odd, structures: rng.range(1, 3), enums: rng.below(3), members: 7 };
    }
    let structures = if rng.chance(1, 30) { rng.range(8, 40) } else { rng.range(1, 7) };
    Mood { odd, structures, enums: rng.small(6), members: *rng.pick(&[4, 8, 12, 12, 20]) }
}

fn habit(rng: &mut Rng) -> Habit {
    Habit {
        wrong: *rng.pick(&[0, 0, 0, 2, 5, 12, 40]),
        missing: *rng.pick(&[0, 5, 10, 25, 60]),
        floats: *rng.pick(&[0, 0, 0, 0, 0, 0, 3, 15]),
        texts: *rng.pick(&[5, 20, 60]),
        items: *rng.pick(&[3, 6, 12, 12, 40]),
    }
}

fn rows(rng: &mut Rng, size: Size) -> usize {
    if size == Size::Tiny {
        return 15;
    }
    match rng.below(20) {
        0..=9 => 20,
        10..=17 => 60,
        18 => 200,
        _ => 600,
    }
}

/// The root's type: the first structure most of the time.
fn root_of(rng: &mut Rng, schema: &Schema) -> u32 {
    let all = &schema.all.structures;
    match rng.below(60) {
        0 => rng.u32() & 0xFFFF,
        1 if !schema.all.enums.is_empty() => schema.all.enums[0].name,
        2..=9 if !all.is_empty() => all[rng.below(all.len())].name,
        _ if schema.structure(0x5000).is_some() => 0x5000,
        _ if !all.is_empty() => all[0].name,
        _ => 0x5000,
    }
}

fn sheet_for(rng: &mut Rng, bytes: &[u8], size: Size) -> Tree {
    let Ok(schema) = Schema::read(bytes) else { return Tree::Struct(0x5000, Vec::new()) };
    let root = root_of(rng, &schema);
    let (habit, budget) = (habit(rng), rows(rng, size));
    if rng.chance(1, 400) {
        return Values { rng, schema: &schema, habit, budget }.any(2);
    }
    let fields = match schema.structure(root) {
        Some(def) => Values { rng, schema: &schema, habit, budget }.fields(def, 24),
        None => Vec::new(),
    };
    Tree::Struct(root, fields)
}

fn general_plan(rng: &mut Rng, size: Size) -> Plan {
    let mood = mood(rng, size);
    let defs = schema::definitions(rng, mood);
    schema::plan(rng, defs, mood.odd)
}

fn general(rng: &mut Rng, size: Size) -> (Vec<u8>, Vec<u8>) {
    let schema = general_plan(rng, size).bytes();
    (sheet_for(rng, &schema, size).sheet(), schema)
}

/// One structure with members of all types, and texts of all forms.
fn scalars(rng: &mut Rng, size: Size) -> (Vec<u8>, Vec<u8>) {
    let odd = *rng.pick(&[0, 0, 10]);
    let members = if size == Size::Tiny { 7 } else { 24 };
    let defs = schema::definitions(rng, Mood { odd, structures: 1, enums: 2, members });
    let schema = schema::plan(rng, defs, 0).bytes();
    let read = Schema::read(&schema).expect("undamaged");
    let habit = Habit { wrong: *rng.pick(&[0, 5, 20]), missing: 0, floats: *rng.pick(&[0, 0, 0, 2, 10]), texts: 90, items: 6 };
    let def = &read.all.structures[0];
    let fields = Values { rng, schema: &read, habit, budget: 100 }.fields(def, 6);
    (Tree::Struct(def.name, fields).sheet(), schema)
}

fn damaged_sheet(rng: &mut Rng, size: Size) -> (Vec<u8>, Vec<u8>) {
    let (mut sheet, mut schema) = general(rng, size);
    if rng.chance(1, 10) {
        damage::damage(rng, &mut schema);
    }
    if rng.chance(1, 8) && sheet.len() > 30 {
        // A byte above 127 in the text area, if there is one.
        let at = sheet.len() - 1 - rng.below(4);
        sheet[at] |= 0x80;
    } else {
        damage::damage(rng, &mut sheet);
    }
    (sheet, schema)
}

fn damaged_schema(rng: &mut Rng, size: Size) -> (Vec<u8>, Vec<u8>) {
    let mut plan = general_plan(rng, size);
    let undamaged = plan.bytes();
    let sheet = sheet_for(rng, &undamaged, size).sheet();
    let mut schema = undamaged;
    match rng.below(4) {
        0 => {
            heavy::odd_definition(rng, &mut plan);
            schema = plan.bytes();
        }
        _ => damage::damage(rng, &mut schema),
    }
    (sheet, schema)
}

fn noise(rng: &mut Rng, size: Size) -> (Vec<u8>, Vec<u8>) {
    let (mut sheet, mut schema) = general(rng, size);
    if rng.chance(1, 2) {
        let n = rng.small(200);
        sheet = rng.bytes(n);
    }
    if rng.chance(1, 2) {
        let n = rng.small(200);
        schema = rng.bytes(n);
    }
    (sheet, schema)
}
