//! Cases that are recorded whatever the seed.
use crate::compare::check;
use crate::gen::limits::work_for;
use crate::gen::Case;
use crate::model::{Limits, Outcome, GENEROUS};
use crate::stats::Stats;

pub struct Fixed {
    pub what: String,
    pub case: Case,
    pub generous: Outcome,
}

/// The limits are what the case needs; it is held against the reference first.
pub fn fixed(what: &str, files: (Vec<u8>, Vec<u8>)) -> Fixed {
    fixed_way(false, what, files)
}

/// The same, built in this way; both are held against the reference.
pub fn fixed_way(alone: bool, what: &str, (sheet, schema): (Vec<u8>, Vec<u8>)) -> Fixed {
    let mut case = Case { alone, sheet, schema, limits: GENEROUS };
    let generous = case.within(&GENEROUS);
    let work = work_for(generous.index_entries.unwrap_or(0), generous.charge);
    let out = generous.answer.as_ref().map_or(64, |p| p.file.len() as u64);
    case.limits = Limits { work, out, records: generous.remarks as u64 };
    let ordinary = case.way(false);
    check(&ordinary, &ordinary.within(&GENEROUS), &mut None, &mut Stats::new()).unwrap_or_else(|e| panic!("{what}: {e}"));
    Fixed { what: what.to_string(), case, generous }
}
