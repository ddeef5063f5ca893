//! Whether a pack carries the definitions that its scene uses: each once, none else, as the schema file has them.
use crate::definitions::shown;
use crate::difference::difference;
use crate::names::Names;
use crate::sections::{definitions, Listed};
use crate::stops;
use crate::words::count;
use sandvurek_model::model::state::{State, Used};
use std::collections::hash_map::Entry;
use std::collections::{HashMap, HashSet};

/// The first fault and how many there are.
#[derive(Default)]
pub struct Faults {
    pub first: Option<String>,
    pub count: u64,
}

impl Faults {
    pub fn add(&mut self, text: impl FnOnce() -> String) {
        self.count += 1;
        self.first.get_or_insert_with(text);
    }

    /// These faults, then others.
    pub fn join(&mut self, others: Faults) {
        self.count += others.count;
        self.first = self.first.take().or(others.first);
    }
}

/// A pack's definitions by kind and name: the first of each, and those that are there again.
struct Carried {
    first: HashMap<(bool, u32), Listed>,
    again: Vec<Listed>,
}

impl Carried {
    fn of(pack: &[u8]) -> Carried {
        let mut carried = Carried { first: HashMap::new(), again: Vec::new() };
        for d in definitions(pack) {
            match carried.first.entry((d.is_enum, d.name)) {
                Entry::Vacant(e) => drop(e.insert(d)),
                Entry::Occupied(_) => carried.again.push(d),
            }
        }
        carried
    }
}

/// The rows that used definitions first.
fn rows(laid: &State) -> HashMap<(bool, u32), usize> {
    let of = |is_enum: bool, used: &Used| {
        let rows = used.names.iter().zip(&used.rows);
        rows.filter_map(|(n, r)| Some(((is_enum, *n), (*r)?))).collect::<Vec<_>>()
    };
    of(false, &laid.structures).into_iter().chain(of(true, &laid.enums)).collect()
}

/// The pack has each definition that a building used, and it is the same; it has none twice and no other.
/// `built` is what was built, with the definitions of `whose`; `laid` knows the rows.
pub fn carries(pack: &[u8], built: &[u8], whose: &str, laid: &State, names: &Names) -> Faults {
    let mut faults = Faults::default();
    let carried = Carried::of(pack);
    let used: Vec<Listed> = definitions(built).collect();
    let rows = rows(laid);
    let shown = |d: &Listed| shown(d, names);
    for d in &used {
        let key = (d.is_enum, d.name);
        let row = || rows.get(&key).map_or(String::new(), |r| format!(" (row {r})"));
        match carried.first.get(&key) {
            None => faults.add(|| format!("{} is used by the scene{} and is not in the pack", shown(d), row())),
            Some(c) => {
                if let Some(text) = difference(pack, c, built, d, names) {
                    faults.add(|| format!("{} of the pack and of {whose} differ{}: {text}", shown(d), row()));
                }
            }
        }
    }
    for d in &carried.again {
        faults.add(|| format!("{} is in the pack twice, the second time at byte {}", shown(d), d.at));
    }
    let needed: HashSet<(bool, u32)> = used.iter().map(|d| (d.is_enum, d.name)).collect();
    let mut others: Vec<&Listed> = carried.first.iter().filter(|(k, _)| !needed.contains(k)).map(|(_, d)| d).collect();
    others.sort_by_key(|d| (d.at, d.is_enum, d.name));
    for d in others {
        faults.add(|| format!("{} at byte {} is not used by the scene", shown(d), d.at));
    }
    faults
}

/// Definitions that the scene needs and the pack lacks, as far as that shows without the schema file.
pub fn lacks(laid: &State, names: &Names) -> Faults {
    let first = laid.trace.lacking.map(|l| {
        format!("structure {} has no definition in the pack ({})", names.shown(l.name), stops::member(l.from, names))
    });
    Faults { first, count: laid.trace.lacks }
}

/// How many structures and enums a file has.
pub fn counted(file: &[u8]) -> String {
    let enums = definitions(file).filter(|d| d.is_enum).count();
    let structures = definitions(file).count() - enums;
    format!("{}, {}", count(structures as u64, "structure"), count(enums as u64, "enum"))
}
