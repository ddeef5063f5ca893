//! What grows while a pack is laid: charge, blocks, items, uses, remarks.
use super::buffer::{Buffer, Laid, Slot};
use super::effort::Effort;
use super::nest::Nest;
use super::trace::{add_row, From, Stop, Trace, Why};
use crate::branch::{Case, Hits, Way};
use std::collections::{HashMap, HashSet};

pub const MAX_BLOCK: u64 = 0x10_0000;
pub const MAX_BLOCKS: usize = 4_095;
pub const MAX_START: u64 = 0xF_FFFF;
/// So many pointers that are left zero are remembered.
const MOST_EMPTY: usize = 1 << 16;
/// A remark takes so many steps.
const REMARK: u64 = 8;
/// Where refusal 10 is passed over, a layout with more blocks is given up.
const FREE_BLOCKS: usize = 65_536;

/// In place of a refusal's number: the layout was given up, since it takes more steps than were allowed.
pub const GAVE_UP: u32 = u32::MAX;

#[derive(Clone, Copy, Debug, PartialEq, Eq, Hash, PartialOrd, Ord)]
#[repr(C)]
pub struct Remark {
    pub kind: u32,
    pub structure: u32,
    pub member: u32,
    pub detail: u32,
}

#[derive(Clone, Debug, PartialEq)]
pub struct Block {
    pub name: u32,
    pub length: u64,
}

/// Block number from 1, start in the block, pointer, bytes with the pointers put in them, and what it was laid for.
#[derive(Clone, Debug, PartialEq)]
pub struct Item {
    pub block: u32,
    pub start: u32,
    pub pointer: u32,
    pub bytes: Box<[u8]>,
    pub slots: Box<[Slot]>,
    pub from: From,
}

/// Names by first use, each with the row that used it first.
#[derive(Default)]
pub struct Used {
    pub names: Vec<u32>,
    pub rows: Vec<Option<usize>>,
    seen: HashSet<u32>,
}

impl Used {
    pub fn add(&mut self, name: u32, row: Option<usize>) {
        if self.seen.insert(name) {
            self.names.push(name);
            self.rows.push(row);
        }
    }
}

pub struct State {
    pub cap: u64,
    pub charge: u64,
    pub records: u64,
    /// Whether refusals 8, 10 and 11 are passed over, and how many steps are left.
    pub free: bool,
    pub steps: u64,
    pub effort: Effort,
    pub nest: Nest,
    /// 14 was met; the library lays the rest all the same.
    pub full: bool,
    pub remarks: Vec<Remark>,
    /// The first rows of each remark.
    pub rows: Vec<Vec<usize>>,
    noted: HashMap<Remark, usize>,
    pub blocks: Vec<Block>,
    /// The blocks of a name, by their index.
    of_name: HashMap<u32, Vec<usize>>,
    pub items: Vec<Item>,
    /// What was empty where a pointer could be.
    pub empty: Vec<From>,
    pub structures: Used,
    pub enums: Used,
    pub hits: Hits,
    pub trace: Trace,
}

impl State {
    pub fn new(cap: u64, records: u64, trace: Trace) -> State {
        State {
            cap,
            charge: 0,
            records,
            free: false,
            steps: u64::MAX,
            effort: Effort::default(),
            nest: Nest::default(),
            full: false,
            remarks: Vec::new(),
            rows: Vec::new(),
            noted: HashMap::new(),
            blocks: Vec::new(),
            of_name: HashMap::new(),
            items: Vec::new(),
            empty: Vec::new(),
            structures: Used::default(),
            enums: Used::default(),
            hits: Hits::new(),
            trace,
        }
    }

    /// A refusal, unless it is passed over.
    pub fn refuse(&mut self, number: u32, from: From, why: Why) -> Result<(), u32> {
        self.trace.stop.get_or_insert(Stop { from, why });
        if self.free && number != 9 { Ok(()) } else { Err(number) }
    }

    /// So many steps more.
    pub fn step(&mut self, steps: u64) -> Result<(), u32> {
        self.steps = self.steps.checked_sub(steps).ok_or(GAVE_UP)?;
        Ok(())
    }

    /// 9: the charge would pass its cap.
    pub fn pay(&mut self, cost: u64, from: From) -> Result<(), u32> {
        if self.charge + cost > self.cap {
            self.refuse(9, from, Why::Charge { charge: self.charge, cost })?;
        }
        self.charge += cost;
        Ok(())
    }

    /// Equal remarks stand once; 14: one more distinct remark than records.
    pub fn note(&mut self, remark: Remark, row: Option<usize>) -> Result<(), u32> {
        if self.full {
            return Ok(());
        }
        self.step(REMARK)?;
        self.effort.note(remark, self.remarks.len());
        if let Some(k) = self.noted.get(&remark) {
            add_row(&mut self.rows[*k], row);
            self.hits.hit(Case::Noted, Way::Repeated);
            return Ok(());
        }
        if self.remarks.len() as u64 >= self.records {
            self.full = true;
            self.hits.close();
            return Ok(());
        }
        self.hits.hit(Case::Noted, Way::Written);
        self.noted.insert(remark, self.remarks.len());
        self.remarks.push(remark);
        self.rows.push(Vec::from_iter(row));
        Ok(())
    }

    /// A pointer is left zero; its number, where that is remembered.
    pub fn nothing(&mut self, from: From) -> Option<u32> {
        if self.empty.len() >= MOST_EMPTY {
            return None;
        }
        self.empty.push(from);
        Some(self.empty.len() as u32 - 1)
    }

    /// The first block of the name with room for so many bytes.
    fn room(&mut self, name: u32, need: u64) -> Option<usize> {
        self.effort.names += self.blocks.len() as u64;
        let same = self.of_name.entry(name).or_default();
        let room = same.iter().copied().find(|i| self.blocks[*i].length + need <= MAX_BLOCK);
        if room.is_none() && !same.is_empty() {
            self.hits.hit(Case::Item, Way::Full);
        }
        room
    }

    /// Files an item in the first block of its name with room, else in a new last one; its pointer, or 10. Alone, it is not looked
    /// whether one has room: "a new last block".
    pub fn lay(&mut self, alone: bool, name: u32, made: Buffer, from: From) -> Result<Laid, u32> {
        let need = made.len() as u64;
        let room = if alone { None } else { self.room(name, need) };
        let number = room.unwrap_or(self.blocks.len()) + 1;
        let start = room.map_or(0, |i| self.blocks[i].length);
        if number > MAX_BLOCKS || start > MAX_START {
            self.refuse(10, from, Why::Block { name, number, start })?;
        }
        if number > FREE_BLOCKS {
            return Err(GAVE_UP);
        }
        self.hits.hit(Case::Item, if room.is_some() { Way::OldBlock } else { Way::NewBlock });
        if need > MAX_BLOCK {
            self.hits.hit(Case::Item, Way::Long);
        }
        if need == 0 {
            self.hits.hit(Case::Item, Way::ZeroLength);
        }
        match room {
            Some(i) => self.blocks[i].length += need,
            None => {
                self.of_name.entry(name).or_default().push(self.blocks.len());
                self.blocks.push(Block { name, length: need });
            }
        }
        let pointer = (number as u32).wrapping_add((start as u32).wrapping_mul(4_096));
        let (bytes, slots) = (made.bytes.into(), made.slots.into());
        self.items.push(Item { block: number as u32, start: start as u32, pointer, bytes, slots, from });
        Ok(Laid { pointer, item: self.items.len() as u32 - 1 })
    }
}
