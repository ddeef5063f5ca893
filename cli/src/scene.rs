//! A scene followed row by row, for messages. What a pack is, the library decides; the model says where and why.
use crate::library::{self, Built, Lent, Remark};
use crate::pack::work_lengths;
use crate::sections::index_entries;
use sandvurek_model::model::schema::Schema;
use sandvurek_model::model::sheet::Sheet;
use sandvurek_model::model::state::{self, State, GAVE_UP};
use sandvurek_model::model::trace::{From, Note};
use sandvurek_model::model::{follow, Followed, Limits, Pace};

/// Scenes that take more steps than this, and some for each byte, are not followed.
const STEPS: u64 = 1 << 25;
const STEPS_A_BYTE: u64 = 8;
/// With more index entries than this nothing is followed: they would take much memory.
const MOST_ENTRIES: usize = 1 << 19;
/// The library compares so many names in the time of a step.
const NAMES_A_STEP: u64 = 64;

/// A scene as far as it was followed.
pub struct Scene {
    pub state: State,
    /// Whether the root got a new last block.
    pub alone: bool,
    /// The file, or the number of its refusal.
    pub answer: Result<Vec<u8>, u32>,
    steps: u64,
    most: u64,
}

/// Why a scene was not followed.
pub enum Lost {
    /// It is refused before it is laid.
    Refused,
    /// It takes too many steps.
    Long,
    /// It does, and had met 14 before.
    Full,
}

impl Lost {
    fn of(number: u32) -> Lost {
        if number == GAVE_UP {
            Lost::Long
        } else {
            Lost::Refused
        }
    }
}

impl Scene {
    /// Follows a scene to its end or its refusal.
    pub fn of(alone: bool, sheet: &[u8], schema: &[u8], lent: Lent) -> Result<Scene, Lost> {
        Scene::paced(alone, sheet, schema, lent, false)
    }

    /// Follows it past refusals 8, 10 and 11.
    pub fn free(alone: bool, sheet: &[u8], schema: &[u8], lent: Lent) -> Result<Scene, Lost> {
        Scene::paced(alone, sheet, schema, lent, true)
    }

    fn paced(alone: bool, sheet: &[u8], schema: &[u8], lent: Lent, free: bool) -> Result<Scene, Lost> {
        let bytes = (sheet.len() + schema.len()) as u64;
        let most = STEPS + STEPS_A_BYTE * bytes;
        if index_entries(schema) > MOST_ENTRIES {
            return Err(Lost::Long);
        }
        let sheet = Sheet::read(sheet).map_err(Lost::of)?;
        // Definitions that do not overlap have fewer members and entries.
        let schema = Schema::read_most(schema, schema.len() / 8).map_err(Lost::of)?;
        let limits = Limits { work: lent.work as u64, out: lent.out as u64, records: lent.records as u64 };
        let Followed { state, answer } =
            follow(&sheet, &schema, &limits, &Pace { free, steps: most, alone }).map_err(Lost::of)?;
        match answer {
            Err(GAVE_UP) if state.full => Err(Lost::Full),
            Err(GAVE_UP) => Err(Lost::Long),
            answer => Ok(Scene { steps: most - state.steps, state, alone, answer, most }),
        }
    }

    /// Whether the library packs it in a like number of steps, with all that it looks for one by one and lays again.
    pub fn is_light(&self) -> bool {
        self.state.effort.all(self.steps.saturating_mul(NAMES_A_STEP)) / NAMES_A_STEP <= self.most
    }

    /// The first rows behind the library's remarks, where they are the ones that were met.
    pub fn rows<'a>(&'a self, remarks: &[Remark]) -> Option<&'a [Vec<usize>]> {
        let same = |(a, b): (&state::Remark, &Remark)| {
            (a.kind, a.structure, a.member, a.detail) == (b.kind, b.structure, b.member, b.detail)
        };
        let met = &self.state.remarks;
        (met.len() == remarks.len() && met.iter().zip(remarks).all(same)).then_some(&self.state.rows)
    }

    /// What is left out without a remark, by row.
    pub fn notes(&self) -> impl Iterator<Item = (Note, From)> + '_ {
        self.state.trace.notes.iter().map(|((_, note), from)| (*note, *from))
    }
}

/// As much as a scene needs, and no more than may be lent.
fn needed(schema: &[u8], scene: Option<&Scene>, most: Lent) -> Lent {
    match scene.map(|s| (&s.answer, s.state.charge as usize)) {
        Some((Ok(file), charge)) => {
            Lent { work: most.work.min(work_lengths(schema).0 + 4 * charge), out: most.out.min(file.len()), ..most }
        }
        _ => most,
    }
}

/// Packs a sheet: the library is lent what the scene needs, so that little is cleared; all, where it asks for more.
pub fn build(alone: bool, sheet: &[u8], schema: &[u8], scene: Option<&Scene>, most: Lent) -> Result<Built, String> {
    let lent = needed(schema, scene, most);
    let built = library::build(alone, sheet, schema, lent)?;
    if built.code == 0 || lent == most {
        return Ok(built);
    }
    library::build(alone, sheet, schema, most)
}
