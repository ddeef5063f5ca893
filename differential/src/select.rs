//! Choosing cases that show something new.
use crate::commands::case_of;
use crate::compare;
use crate::gen::limits::work_for;
use crate::gen::{Case, Size};
use crate::model::schema::Schema;
use crate::model::Outcome;
use crate::stats::Stats;
use std::collections::HashMap;

/// How often each thing was shown.
pub struct Shown {
    counts: HashMap<u32, u32>,
    /// How often a thing is worth showing.
    wanted: u32,
}

impl Shown {
    pub fn new(wanted: u32) -> Shown {
        Shown { counts: HashMap::new(), wanted }
    }

    pub fn count(&self, thing: u32) -> u32 {
        self.counts.get(&thing).copied().unwrap_or(0)
    }

    /// Takes the things of a case if one of them is still wanted.
    pub fn take(&mut self, things: &[u32]) -> bool {
        if !things.iter().any(|t| self.count(*t) < self.wanted) {
            return false;
        }
        self.add(things);
        true
    }

    pub fn add(&mut self, things: &[u32]) {
        for t in things {
            *self.counts.entry(*t).or_default() += 1;
        }
    }
}

pub const CODE: u32 = 100_000;
pub const REMARK: u32 = 100_100;
const EXACT: u32 = 100_200;
const TYPES: u32 = 101_000;

/// What a case shows: branches, values, refusals, remarks, exact limits, types and subtypes of members.
pub fn things(case: &Case, generous: &Outcome) -> (Outcome, Vec<u32>) {
    let limited = case.within(&case.limits);
    let mut out = limited.hits.features();
    out.push(CODE + limited.code());
    if let Ok(p) = &limited.answer {
        out.extend(p.remarks.iter().map(|r| REMARK + r.kind));
    }
    if let (Ok(p), Some(i)) = (&generous.answer, generous.index_entries) {
        let l = &case.limits;
        let marks = [
            l.work == work_for(i, p.charge), l.work + 1 == work_for(i, p.charge), l.out == p.file.len() as u64,
            l.out + 1 == p.file.len() as u64, l.records == p.remarks.len() as u64, l.records + 1 == p.remarks.len() as u64,
            l.work == work_for(i, 0), l.work + 1 == work_for(i, 0),
        ];
        out.extend(marks.iter().enumerate().filter(|(_, m)| **m).map(|(k, _)| EXACT + k as u32));
    }
    if let (true, Ok(schema)) = (limited.code() == 0, Schema::read(&case.schema)) {
        for m in schema.all.structures.iter().flat_map(|s| s.members.iter()) {
            out.push(TYPES + m.ty as u32 * 16 + m.subtype.min(15) as u32);
        }
    }
    out.sort_unstable();
    out.dedup();
    (limited, out)
}

/// What is asked of a choice of cases.
pub struct Choice {
    pub seed: u64,
    pub size: Size,
    pub count: usize,
    /// How often a branch, a value in a place, a type is worth showing.
    pub wanted: u32,
    /// How often each refusal and each remark kind must be shown.
    pub each: u32,
}

/// Cases that show something new, and every refusal but 10 and every remark kind often enough.
pub fn choose(choice: &Choice, keep: impl Fn(&Case, &Outcome) -> bool) -> Vec<(Case, Outcome)> {
    let mut shown = Shown::new(choice.wanted);
    let mut out = Vec::new();
    let must: Vec<u32> = (0..=9).chain(11..=14).map(|c| CODE + c).chain((1..=13).map(|k| REMARK + k)).collect();
    for n in 0..2_000_000 {
        let room = out.len() < choice.count;
        if !room && must.iter().all(|t| shown.count(*t) >= choice.each) {
            break;
        }
        let (case, generous, _) = case_of(choice.seed, n, choice.size);
        let (limited, list) = things(&case, &generous);
        let needed = list.iter().any(|t| must.contains(t) && shown.count(*t) < choice.each);
        if !keep(&case, &limited) || !(needed || room) {
            continue;
        }
        if needed {
            shown.add(&list);
        } else if !shown.take(&list) {
            continue;
        }
        // What is recorded is held against the reference first.
        compare::check(&case, &generous, &mut None, &mut Stats::new()).unwrap_or_else(|e| panic!("case {n}: {e}"));
        out.push((case, limited));
    }
    out
}
