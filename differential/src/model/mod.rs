//! Document 01 with requests 2.1, 2.6 and 2.10, written a second time: the exact answer for every input.
pub mod assemble;
pub mod buffer;
pub mod cells;
pub mod coerce;
pub mod compound;
pub mod decimals;
pub mod effort;
pub mod nest;
pub mod number;
pub mod reader;
pub mod run;
pub mod schema;
pub mod sheet;
pub mod state;
pub mod text;
pub mod trace;
pub mod write;

use crate::branch::Hits;
use nest::{Chain, Reached};
use schema::Schema;
use sheet::Sheet;
use state::{Block, Item, Remark, State, GAVE_UP};
use trace::{From, Trace};
use write::{Fields, Writer};

pub const MAX_CHARGE: u64 = 4_194_304;
pub const MAX_FILE: u64 = 16_777_216;
pub const MIN_WORK: u64 = 65_536;

/// The lengths of the lent buffers.
#[derive(Clone, Copy, Debug, PartialEq)]
pub struct Limits {
    pub work: u64,
    pub out: u64,
    pub records: u64,
}

/// Limits that refuse nothing that larger ones would not.
pub const GENEROUS: Limits = Limits { work: u64::MAX / 2, out: u64::MAX, records: u64::MAX };

pub struct Pack {
    pub file: Vec<u8>,
    pub remarks: Vec<Remark>,
    pub items: Vec<Item>,
    pub blocks: Vec<Block>,
    pub structures: Vec<u32>,
    pub enums: Vec<u32>,
    pub charge: u64,
}

impl Pack {
    /// Whether a block was opened for the root: nothing else stands in it. Its start may be 0 in another's, of items without bytes.
    pub fn opened(&self) -> bool {
        let root = self.items.last().map(|i| i.block);
        self.items.iter().filter(|i| Some(i.block) == root).count() == 1
    }
}

/// A pack or the number of its refusal, and what was passed through on the way.
pub struct Outcome {
    pub answer: Result<Pack, u32>,
    pub hits: Hits,
    /// Charge and distinct remarks when it ended.
    pub charge: u64,
    pub remarks: usize,
    pub index_entries: Option<usize>,
    /// The longest chain of structures.
    pub chain: Chain,
}

impl Outcome {
    pub fn code(&self) -> u32 {
        self.answer.as_ref().err().copied().unwrap_or(0)
    }

    fn early(number: u32, index_entries: Option<usize>) -> Outcome {
        Outcome { answer: Err(number), hits: Hits::new(), charge: 0, remarks: 0, index_entries, chain: Chain::default() }
    }
}

/// 1, 2, 3; sections in file order (4, 5, 6); 7; 12; writing; last 13. Alone, the root gets a new last block.
pub fn build(alone: bool, sheet: &[u8], schema: &[u8], limits: &Limits) -> Outcome {
    let sheet = match Sheet::read(sheet) {
        Ok(s) => s,
        Err(n) => return Outcome::early(n, None),
    };
    let schema = match Schema::read(schema) {
        Ok(s) => s,
        Err(n) => return Outcome::early(n, None),
    };
    let entries = schema.index_entries();
    let Followed { state, answer } = match follow(&sheet, &schema, limits, &Pace { alone, ..Pace::WHOLE }) {
        Ok(f) => f,
        Err(n) => return Outcome::early(n, Some(entries)),
    };
    let (charge, remarks, chain) = (state.charge, state.remarks.len(), state.nest.longest);
    let answer = answer.map(|file| Pack {
        file,
        remarks: state.remarks,
        items: state.items,
        blocks: state.blocks,
        structures: state.structures.names,
        enums: state.enums.names,
        charge,
    });
    Outcome { answer, hits: state.hits, charge, remarks, index_entries: Some(entries), chain }
}

/// How a layout is followed: whether refusals 8, 10 and 11 are passed over, after how many steps it is given up, and whether the
/// root gets a new last block.
pub struct Pace {
    pub free: bool,
    pub steps: u64,
    pub alone: bool,
}

impl Pace {
    pub const WHOLE: Pace = Pace { free: false, steps: u64::MAX, alone: false };
}

/// A layout that was followed to its end or its refusal, and the file.
pub struct Followed {
    pub state: State,
    pub answer: Result<Vec<u8>, u32>,
}

/// The layout of a sheet with a schema, or 7 or 12.
pub fn follow(sheet: &Sheet, schema: &Schema, limits: &Limits, pace: &Pace) -> Result<Followed, u32> {
    let def = schema.structure(sheet.rows[0].a).ok_or(7u32)?;
    let need = MIN_WORK + 8 * schema.index_entries() as u64;
    let cap = MAX_CHARGE.min(limits.work.checked_sub(need).ok_or(12u32)? / 4);
    let mut state = State::new(cap, limits.records, Trace::of(sheet));
    (state.free, state.steps) = (pace.free, pace.steps);
    let mut w = Writer { sheet, schema, state };
    let made = w.structure(def, &Fields::Children(0), From::ROOT, Reached::Root);
    let laid = made.and_then(|made| w.state.lay(pace.alone, def.name, made, From::ROOT));
    let mut state = w.state;
    if laid.is_ok() {
        state.trace.close(sheet);
    }
    // 14 was met before any refusal that stopped it later.
    let answer = match laid {
        Err(GAVE_UP) => Err(GAVE_UP),
        _ if state.full => Err(14),
        laid => laid.and_then(|laid| finish(schema, &state, laid.pointer, limits)),
    };
    Ok(Followed { state, answer })
}

/// 13: the file is longer than the output or than 16,777,216.
fn finish(schema: &Schema, state: &State, pointer: u32, limits: &Limits) -> Result<Vec<u8>, u32> {
    let length = assemble::length(schema, state);
    if length > limits.out || length > MAX_FILE {
        return Err(13);
    }
    let file = assemble::file(schema, state, pointer);
    assert_eq!(file.len() as u64, length);
    Ok(file)
}
