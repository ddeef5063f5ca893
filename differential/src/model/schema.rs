//! The schema file: sections, definitions; refusals 4, 5 and 6.
use crate::bytes::{u16_at, u32_at};
use super::state::GAVE_UP;
use std::collections::HashMap;
use std::rc::Rc;

pub const PSIN: u32 = 0x5053_494E;
pub const PMAP: u32 = 0x504D_4150;
pub const PSCH: u32 = 0x5053_4348;

#[derive(Clone, Copy, Debug, PartialEq)]
pub struct Member {
    pub name: u32,
    pub ty: u8,
    pub subtype: u8,
    pub offset: u16,
    pub reference: u32,
}

#[derive(Clone, Debug, PartialEq)]
pub struct Structure {
    pub name: u32,
    pub unknown: u8,
    pub size: u32,
    pub members: Rc<[Member]>,
}

#[derive(Clone, Debug, PartialEq)]
pub struct Enumeration {
    pub name: u32,
    pub entries: Rc<[(u32, u32)]>,
}

/// All definitions in index order, over all PSCH sections in file order.
#[derive(Debug, Clone)]
pub struct Definitions {
    pub structures: Vec<Structure>,
    pub enums: Vec<Enumeration>,
    /// How many members and entries may still be read; those of one place are read once.
    left: usize,
}

impl Default for Definitions {
    fn default() -> Definitions {
        Definitions { structures: Vec::new(), enums: Vec::new(), left: usize::MAX }
    }
}

/// Members and entries by their place in a section.
#[derive(Default)]
struct Places {
    members: HashMap<usize, Rc<[Member]>>,
    entries: HashMap<usize, Rc<[(u32, u32)]>>,
}

/// What follows the sections before: the next section with its place, the end, or refusal 4.
pub fn next_section(file: &[u8], at: usize) -> Result<Option<(u32, &[u8])>, u32> {
    if file.len() < at + 8 {
        return Ok(None);
    }
    let length = u32_at(file, at + 4) as usize;
    if length < 8 || length > file.len() - at {
        return Err(4);
    }
    Ok(Some((u32_at(file, at), &file[at..at + length])))
}

impl Definitions {
    /// Adds the definitions of a PSCH section; 5 or 6.
    pub fn add(&mut self, section: &[u8]) -> Result<(), u32> {
        if section.len() < 12 {
            return Err(5);
        }
        let count = u32_at(section, 8) as usize;
        if section.len() < 12 + 8 * count {
            return Err(5);
        }
        let mut places = Places::default();
        for i in 0..count {
            let name = u32_at(section, 12 + 8 * i);
            let at = u32_at(section, 16 + 8 * i) as usize;
            self.add_one(section, name, at, &mut places)?;
        }
        Ok(())
    }

    fn take(&mut self, n: usize) -> Result<(), u32> {
        self.left = self.left.checked_sub(n).ok_or(GAVE_UP)?;
        Ok(())
    }

    fn add_one(&mut self, section: &[u8], name: u32, at: usize, places: &mut Places) -> Result<(), u32> {
        let inside = |from: usize, n: usize| from + n <= section.len();
        if !inside(at, 4) {
            return Err(5);
        }
        match section[at] {
            0 => {
                let n = u16_at(section, at + 2) as usize;
                if !inside(at, 8) || (n > 0 && !inside(at + 12, 12 * n)) {
                    return Err(5);
                }
                if !places.members.contains_key(&at) {
                    self.take(n)?;
                    places.members.insert(at, (0..n).map(|k| member_at(section, at + 12 + 12 * k)).collect());
                }
                let members = places.members[&at].clone();
                self.structures.push(Structure { name, unknown: section[at + 1], size: u32_at(section, at + 4), members });
            }
            1 => {
                let n = (u32_at(section, at) & 0xFF_FFFF) as usize;
                if n > 0 && !inside(at + 4, 8 * n) {
                    return Err(5);
                }
                if !places.entries.contains_key(&at) {
                    self.take(n)?;
                    let entry = |k: usize| (u32_at(section, at + 4 + 8 * k), u32_at(section, at + 8 + 8 * k));
                    places.entries.insert(at, (0..n).map(entry).collect());
                }
                self.enums.push(Enumeration { name, entries: places.entries[&at].clone() });
            }
            _ => return Err(6),
        }
        Ok(())
    }
}

fn member_at(s: &[u8], at: usize) -> Member {
    Member { name: u32_at(s, at), ty: s[at + 4], subtype: s[at + 5], offset: u16_at(s, at + 6), reference: u32_at(s, at + 8) }
}

/// The definitions that building finds: a later one of a name wins.
pub struct Schema {
    pub all: Definitions,
    sections: usize,
    structures: HashMap<u32, usize>,
    enums: HashMap<u32, usize>,
}

impl Schema {
    /// The schema of a file, or 4, 5, 6 as first met in file order.
    pub fn read(file: &[u8]) -> Result<Schema, u32> {
        Schema::read_most(file, usize::MAX)
    }

    /// The same, given up where more members and entries would be read.
    pub fn read_most(file: &[u8], most: usize) -> Result<Schema, u32> {
        let mut all = Definitions { left: most, ..Definitions::default() };
        let (mut at, mut sections) = (0, 0);
        while let Some((name, section)) = next_section(file, at)? {
            if name == PSCH {
                all.add(section)?;
            }
            at += section.len();
            sections += 1;
        }
        let structures = all.structures.iter().enumerate().map(|(i, s)| (s.name, i)).collect();
        let enums = all.enums.iter().enumerate().map(|(i, e)| (e.name, i)).collect();
        Ok(Schema { all, sections, structures, enums })
    }

    /// The index entries of all PSCH sections.
    pub fn index_entries(&self) -> usize {
        self.all.structures.len() + self.all.enums.len()
    }

    /// How long it takes to look through the file for a name: an entry of an index is one, a section about four.
    pub fn weight(&self) -> u64 {
        (self.index_entries() + 4 * self.sections) as u64
    }

    pub fn structure(&self, name: u32) -> Option<&Structure> {
        self.structures.get(&name).map(|i| &self.all.structures[*i])
    }

    pub fn enumeration(&self, name: u32) -> Option<&Enumeration> {
        self.enums.get(&name).map(|i| &self.all.enums[*i])
    }
}
