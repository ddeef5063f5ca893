//! Lengths of the lent buffers: comfortable, exact, one unit short.
use super::Size;
use crate::model::{Limits, Outcome, MAX_CHARGE, MAX_FILE, MIN_WORK};
use crate::rng::Rng;

/// The work area whose cap is `cap`.
pub fn work_for(entries: usize, cap: u64) -> u64 {
    MIN_WORK + 8 * entries as u64 + 4 * cap
}

/// The pack's length; in half of the cases, where the pack with the root alone is longer, that one's.
fn length(rng: &mut Rng, generous: &Outcome) -> u64 {
    let Ok(pack) = &generous.answer else { return 100 };
    let length = pack.file.len() as u64;
    if !pack.opened() && rng.chance(1, 2) { length + 16 } else { length }
}

/// Limits for a case whose answer with generous ones is known.
pub fn limits(rng: &mut Rng, generous: &Outcome, size: Size) -> Limits {
    let entries = generous.index_entries.unwrap_or(0);
    let length = length(rng, generous);
    let (charge, remarks) = (generous.charge, generous.remarks as u64);
    let slack = |rng: &mut Rng, n: usize| rng.small(n) as u64;
    if generous.code() == 9 && size == Size::Full && rng.chance(1, 2) {
        // More work than the cap can use.
        return Limits { work: work_for(entries, MAX_CHARGE) + slack(rng, 40), out: 1_000, records: remarks + 4 };
    }
    if generous.code() == 13 {
        // Output enough for any file.
        return Limits { work: work_for(entries, charge), out: MAX_FILE + 1 + slack(rng, 1_000), records: remarks };
    }
    if generous.code() == 10 && rng.chance(1, 3) {
        // One unit short of what was charged before 10.
        return Limits { work: work_for(entries, charge) - 1, out: 1_000, records: remarks };
    }
    let mut l = Limits {
        work: work_for(entries, charge) + slack(rng, 4_000),
        out: length + slack(rng, 300),
        records: remarks + slack(rng, 12),
    };
    match rng.below(24) {
        0..=8 => {}
        9 => l.work = work_for(entries, charge),
        10 => l.work = work_for(entries, charge).saturating_sub(1 + slack(rng, 3)),
        11 => l.work = work_for(entries, rng.below(charge as usize + 1) as u64) + rng.below(4) as u64,
        12 => l.work = work_for(entries, 0) - 1 - slack(rng, 40),
        13 => l.work = rng.below(work_for(entries, 20) as usize) as u64,
        14 => l.out = length,
        15 => l.out = length.saturating_sub(1),
        16 => l.out = rng.below(length as usize + 1) as u64,
        17 => l.records = remarks,
        18 => l.records = remarks.saturating_sub(1),
        19 => l.records = rng.below(remarks as usize + 1) as u64,
        20 => l = Limits { work: work_for(entries, charge), out: length, records: remarks },
        21 => {
            let less = |rng: &mut Rng, x: u64| x.saturating_sub(rng.below(3) as u64);
            l = Limits { work: less(rng, work_for(entries, charge)), out: less(rng, length), records: less(rng, remarks) };
        }
        22 if size == Size::Full && rng.chance(1, 30) => l.work = work_for(entries, MAX_CHARGE) + slack(rng, 100_000),
        _ => l.work = work_for(entries, charge) + rng.below(60_000) as u64,
    }
    l
}
