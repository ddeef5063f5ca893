//! What a layout met on its way, by row, for messages. No answer depends on it.
#![allow(dead_code)] // the command line reads what the comparison does not
use super::sheet::Sheet;
use std::collections::{BTreeMap, HashSet};
use std::ops::Range;

/// So many rows of a remark are kept, the first of the sheet.
pub const MOST_ROWS: usize = 6;

/// What is being written: a member of a structure, and its value's row, or that of an element of it.
#[derive(Clone, Copy, Debug, PartialEq, Eq)]
pub struct From {
    pub structure: u32,
    pub member: u32,
    pub row: Option<usize>,
}

impl From {
    /// The root, which is no member.
    pub const ROOT: From = From { structure: 0, member: 0, row: Some(0) };

    pub fn at(self, row: usize) -> From {
        From { row: Some(row), ..self }
    }
}

/// What is left out without a remark.
#[derive(Clone, Copy, Debug, PartialEq, Eq, PartialOrd, Ord)]
pub enum Note {
    /// The structure has no member of the row's name.
    NotHeld,
    /// An earlier row has the same name.
    Repeated,
    /// A number that its member's width does not hold.
    Narrowed,
    /// A float, or a decimal typed as text, whose fraction is dropped.
    Fraction,
    /// More numbers than the vector holds.
    Extra,
    /// A text that its room does not hold.
    TextCut,
    /// More items than an embedded array holds.
    ItemsCut,
    /// A run that is dropped for one element, the row of which is told.
    Vanished(usize),
    /// An element that is no structure: its pointer is zero.
    NoStructure,
    /// An element that is no text: an empty one stands for it.
    NoText,
}

/// Why and where a layout was refused.
#[derive(Clone, Copy, Debug)]
pub struct Stop {
    pub from: From,
    pub why: Why,
}

#[derive(Clone, Copy, Debug)]
pub enum Why {
    /// 8: the structure that would start.
    Depth { structure: u32 },
    /// 9: the charge so far, and what would have been added.
    Charge { charge: u64, cost: u64 },
    /// 10: the block's name, its number and the start.
    Block { name: u32, number: usize, start: u64 },
    /// 11: a text that a float parse takes and that is no decimal.
    FloatText,
}

/// A definition that was looked for and is not there, though a value needs it.
#[derive(Clone, Copy, Debug)]
pub struct Lacking {
    pub name: u32,
    pub from: From,
}

#[derive(Default)]
pub struct Trace {
    /// By row, what is left out there, and where it belongs.
    pub notes: BTreeMap<(usize, Note), From>,
    pub stop: Option<Stop>,
    /// The first definition that is lacking, and how many times one is.
    pub lacking: Option<Lacking>,
    pub lacks: u64,
    /// Rows whose own type is lacking: their pointers may lead to a block of that name.
    pub foreign: HashSet<usize>,
    /// Rows whose value was looked at as a member.
    looked: Vec<bool>,
    /// Rows whose children were members of a structure, with the structure's name.
    opened: Vec<Option<u32>>,
}

impl Trace {
    pub fn of(sheet: &Sheet) -> Trace {
        let rows = sheet.rows.len();
        Trace { looked: vec![false; rows], opened: vec![None; rows], ..Trace::default() }
    }

    /// A note, once for a row.
    pub fn note(&mut self, note: Note, from: From) {
        if let Some(row) = from.row {
            self.notes.entry((row, note)).or_insert(from);
        }
    }

    pub fn lacks(&mut self, name: u32, from: From) {
        self.lacking.get_or_insert(Lacking { name, from });
        self.lacks += 1;
    }

    pub fn look(&mut self, row: usize) {
        self.looked[row] = true;
    }

    /// The row's children are the members of a structure.
    pub fn open(&mut self, row: usize, structure: u32) {
        self.opened[row].get_or_insert(structure);
    }

    /// Notes a key or a value that no member of the pair's structure took.
    pub fn note_pair(&mut self, rows: Range<usize>, structure: u32) {
        for row in rows.filter(|r| !self.looked[*r]).collect::<Vec<_>>() {
            self.note(Note::NotHeld, From { structure, member: 0, row: Some(row) });
        }
    }

    /// Notes the members that no structure took.
    pub fn close(&mut self, sheet: &Sheet) {
        for (row, structure) in self.opened.clone().into_iter().enumerate() {
            let Some(structure) = structure else { continue };
            let children = sheet.children(&sheet.rows[row]);
            for child in children.filter(|c| !self.looked[*c]).collect::<Vec<_>>() {
                let member = sheet.rows[child].name;
                let first = sheet.named(row, member).is_some_and(|f| f != child && self.looked[f]);
                let note = if first { Note::Repeated } else { Note::NotHeld };
                self.note(note, From { structure, member, row: Some(child) });
            }
        }
    }
}

/// Adds a row to the first rows of a remark.
pub fn add_row(rows: &mut Vec<usize>, row: Option<usize>) {
    let Some(row) = row else { return };
    if let Err(at) = rows.binary_search(&row) {
        rows.insert(at, row);
        rows.truncate(MOST_ROWS);
    }
}
