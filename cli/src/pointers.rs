//! Follows the pointers of a pack along its scene: each leads to what packing lays for it.
use crate::bytes::u32_at;
use crate::library::Reading;
use crate::names::Names;
use crate::schema_check::Faults;
use crate::sections::{blocks, sections, Block};
use crate::stops;
use crate::words::count;
use sandvurek_model::model::buffer::{Leads, Slot};
use sandvurek_model::model::state::{Item, State};
use sandvurek_model::model::trace::From;

/// A pack with its blocks.
pub struct Pack<'a> {
    pub file: &'a [u8],
    pub reading: &'a Reading,
    pub blocks: Vec<Block>,
}

/// Bytes of a block: its number from 1 and the start.
#[derive(Clone, Copy, PartialEq, Eq)]
struct Place {
    block: usize,
    start: usize,
}

impl Place {
    fn of(pointer: u32) -> Place {
        Place { block: (pointer & 0xFFF) as usize, start: (pointer >> 12) as usize }
    }

    fn shown(self) -> String {
        match self.block {
            0 => "no block".into(),
            n => format!("block {n}, start 0x{:X}", self.start),
        }
    }
}

impl<'a> Pack<'a> {
    pub fn of(file: &'a [u8], reading: &'a Reading) -> Pack<'a> {
        Pack { file, reading, blocks: blocks(file).collect() }
    }

    /// A block's row and its bytes, where they lie in the data section.
    fn block(&self, number: usize) -> Option<(&Block, &'a [u8])> {
        let b = self.blocks.get(number.checked_sub(1)?)?;
        let data = self.file.get(self.reading.data_at..)?.get(..self.reading.data_length)?;
        Some((b, data.get(b.place as usize..)?.get(..b.length as usize)?))
    }

    /// A place in the file, for a block that lies in the data.
    fn byte(&self, at: Place) -> usize {
        self.reading.data_at + self.blocks[at.block - 1].place as usize + at.start
    }

    /// Where the file says which block is the root's.
    fn root_byte(&self) -> usize {
        sections(self.file).filter(|s| s.is(b"PMAP")).last().map_or(0, |s| s.at + 8)
    }
}

/// What was found: faults, and how many pointers were looked at.
#[derive(Default)]
pub struct Walk {
    pub faults: Faults,
    pub pointers: u64,
}

/// The walk through the items of a layout, each with its place in the pack.
struct Follow<'a> {
    pack: &'a Pack<'a>,
    laid: &'a State,
    names: &'a Names,
    /// Whether places are due as they were laid, not just names and lengths.
    exact: bool,
    walk: Walk,
    todo: Vec<(usize, Place)>,
}

/// Follows the pointers of a scene that was laid, from the root down. Where it was laid to a pack that this one should
/// be (`exact`), each pointer is due as it stands there, and else its block's name and room.
pub fn follow(pack: &Pack, laid: &State, exact: bool, names: &Names) -> Walk {
    let mut f = Follow { pack, laid, names, exact, walk: Walk::default(), todo: Vec::new() };
    f.root();
    while let Some((item, at)) = f.todo.pop() {
        let item = &laid.items[item];
        let found: Vec<_> = item.slots.iter().filter_map(|slot| f.slot(item, at, *slot)).collect();
        // The first is taken next.
        f.todo.extend(found.into_iter().rev());
    }
    f.walk
}

impl Follow<'_> {
    /// The root ends its block.
    fn root(&mut self) {
        let (pack, laid, names) = (self.pack, self.laid, self.names);
        let Some((last, root)) = laid.items.split_last().map(|(root, before)| (before.len(), root)) else { return };
        let number = pack.reading.root as usize;
        let here = || format!("byte {} of the file, the root's block number, says {number}", pack.root_byte());
        if self.exact && number != root.block as usize {
            return self.walk.faults.add(|| format!("{}; {} is due", here(), root.block));
        }
        let name = laid.blocks[root.block as usize - 1].name;
        let Some((block, bytes)) = pack.block(number) else {
            return self.walk.faults.add(|| format!("{}; there is no such block in the data", here()));
        };
        if block.name != name {
            return self.walk.faults.add(|| {
                format!("{}, a block of name {}; {} is due", here(), names.shown(block.name), names.shown(name))
            });
        }
        let size = root.bytes.len();
        let start = if self.exact { root.start as usize } else { bytes.len().saturating_sub(size) };
        if start + size != bytes.len() {
            let (has, due) = (count(bytes.len() as u64, "byte"), count((start + size) as u64, "byte"));
            self.walk.faults.add(|| format!("{}, a block of {has}; {due} are due", here()));
        }
        if start + size <= bytes.len() {
            self.todo.push((last, Place { block: number, start }));
        }
    }

    /// The pointer of a slot; where it leads, if that can be followed.
    fn slot(&mut self, item: &Item, at: Place, slot: Slot) -> Option<(usize, Place)> {
        let here = Place { start: at.start + slot.at as usize, ..at };
        let (_, bytes) = self.pack.block(at.block)?;
        let (says, due) = (u32_at(bytes, here.start), u32_at(&item.bytes, slot.at as usize));
        let (from, pointer) = match slot.leads {
            Leads::Item(k) => (self.laid.items[k as usize].from, self.laid.items[k as usize].pointer),
            Leads::Nowhere(k) => (self.laid.empty[k as usize], 0),
        };
        self.walk.pointers += u64::from(pointer != 0);
        // What another member's bytes cover leads nowhere; it is compared all the same.
        let stands = due == pointer;
        let other = (self.exact && says != due).then(|| format!("; {} is due", Place::of(due).shown()));
        let wrong = other.or_else(|| if stands { self.wrong(slot.leads, says) } else { None });
        if let Some(reason) = wrong {
            self.fault_at(from, here, &format!("says {}{reason}", Place::of(says).shown()));
            return None;
        }
        if self.exact && slot.counted {
            self.count(from, here, item, slot);
        }
        match slot.leads {
            Leads::Item(k) if stands && !self.unsure(from) => Some((k as usize, Place::of(says))),
            _ => None,
        }
    }

    /// The count behind a pointer.
    fn count(&mut self, from: From, here: Place, item: &Item, slot: Slot) {
        let Some((_, bytes)) = self.pack.block(here.block) else { return };
        let (says, due) = (u32_at(bytes, here.start + 8), u32_at(&item.bytes, slot.at as usize + 8));
        if says != due {
            let at = Place { start: here.start + 8, ..here };
            let both = |n: u32| format!("{} and {}", n >> 16, n & 0xFFFF);
            self.fault_at(from, at, &format!("says counts {}; {} are due", both(says), both(due)));
        }
    }

    fn fault_at(&mut self, from: From, here: Place, text: &str) {
        let (pack, names) = (self.pack, self.names);
        let place = |p: Place| format!("byte {} of the file (block {}, start 0x{:X})", pack.byte(p), p.block, p.start);
        self.walk.faults.add(|| format!("{}: {} {text}", stops::member(from, names), place(here)));
    }

    /// Whether packing may file it under another name: its own type, which has no definition here.
    fn unsure(&self, from: From) -> bool {
        !self.exact && from.row.is_some_and(|r| self.laid.trace.foreign.contains(&r))
    }

    /// What is wrong with where a pointer leads, by its block's name and length.
    fn wrong(&self, leads: Leads, says: u32) -> Option<String> {
        let to = Place::of(says);
        let Leads::Item(k) = leads else { return None };
        let target = &self.laid.items[k as usize];
        if self.unsure(target.from) {
            return None;
        }
        let (name, names) = (self.laid.blocks[target.block as usize - 1].name, self.names);
        let Some((block, bytes)) = self.pack.block(to.block) else {
            return Some(format!(", which is not in the data; a block of name {} is due", names.shown(name)));
        };
        if block.name != name {
            return Some(format!(", of name {}; name {} is due", names.shown(block.name), names.shown(name)));
        }
        let left = bytes.len().saturating_sub(to.start);
        let need = target.bytes.len();
        (need > left).then(|| format!("; {} are due there, {left} are left", count(need as u64, "byte")))
    }
}
