//! Sheets with one thing changed at the edges of their row numbers: fields too large by multiples of 65,536, sums at 16,384 rows.
use super::{general, Size};
use crate::bytes::{push_u32, put_u32, u32_at};
use crate::model::sheet::*;
use crate::rng::Rng;

pub const CHANGES: [&str; 8] = [
    "nothing", "a first child and 65,536", "a count and 65,536", "a field at an edge", "a count and one", "the row count", "a row", "a name",
];

/// Numbers at which 16 bits or a sheet end, or 32 bits overflow.
const EDGES: [u32; 14] = [
    0, 1, 16_383, 16_384, 16_385, 0x7FFF, 0x8000, 0xFFFF, 0x1_0000, 0x1_0001, 0x7FFF_FFFF, 0x8000_0000, 0x8000_0001, 0xFFFF_FFFF,
];

/// A sheet that keeps its layout but for one change in seven of eight, and that change's place in `CHANGES`.
pub fn sheet(rng: &mut Rng) -> (usize, Vec<u8>) {
    let mut s = if rng.chance(1, 8) { full(rng) } else { general(rng, Size::Full).0 };
    let change = rng.below(CHANGES.len());
    let containers: Vec<usize> = rows_of(&s).filter(|at| matches!(s[*at], ARRAY..=STRUCT)).collect();
    if change == 0 || containers.is_empty() {
        return (0, s);
    }
    let container = *rng.pick(&containers);
    edit(rng, &mut s, change, container);
    (change, s)
}

/// The places of the rows.
fn rows_of(s: &[u8]) -> impl Iterator<Item = usize> {
    (0..u32_at(s, 0) as usize).map(|r| 4 + 24 * r)
}

/// Where a container has its first child, and behind it its count.
fn claim_at(s: &[u8], at: usize) -> usize {
    at + if s[at] == STRUCT { 12 } else { 8 }
}

fn add(s: &mut [u8], at: usize, x: u32) {
    let old = u32_at(s, at);
    put_u32(s, at, old.wrapping_add(x));
}

/// A change by its place in `CHANGES`, those of a container at the one that is given.
fn edit(rng: &mut Rng, s: &mut Vec<u8>, change: usize, container: usize) {
    let first = claim_at(s, container);
    let count = first + 4;
    let times = if rng.chance(1, 2) { 1 } else { rng.range(1, 0xFFFF) as u32 };
    // One more, or one less.
    let one = *rng.pick(&[1, u32::MAX]);
    match change {
        1 => add(s, first, times << 16),
        // A pair is two rows: the sum is the right one in 16 bits, or in 32.
        2 if s[container] == MAP => add(s, count, *rng.pick(&[times << 15, 0x8000_0000])),
        2 => add(s, count, times << 16),
        3 => put_u32(s, *rng.pick(&[first, count]), *rng.pick(&EDGES)),
        4 => add(s, count, one),
        5 => add(s, 0, *rng.pick(&[one, times << 16])),
        6 => {
            let end = 4 + 24 * u32_at(s, 0) as usize;
            if one == 1 { s.splice(end..end, [0; 24]); } else { s.drain(end - 24..end); }
            add(s, 0, one);
        }
        _ => {
            let rows: Vec<usize> = rows_of(s).collect();
            put_u32(s, *rng.pick(&rows) + 4, *rng.pick(&[1, 0x1_0000]));
        }
    }
}

/// A sheet of 16,384 rows or a few less, of containers of the three kinds, empty and full, and numbers.
fn full(rng: &mut Rng) -> Vec<u8> {
    let n = rng.range(16_380, MAX_ROWS);
    let share = *rng.pick(&[2, 20, 400]);
    let mut levels = vec![(1, false)];
    let mut out = Vec::with_capacity(4 + 24 * n);
    push_u32(&mut out, n as u32);
    for r in 0..n {
        let (level, named) = levels[r];
        let (left, last) = (n - levels.len(), r + 1 == levels.len());
        let name = if named { rng.u32() & 0xFF } else { 0 };
        // Deeper than level 60 the last row takes all that are left.
        let most = if last && level > 60 || rng.chance(1, 2_000) { left } else { left.min(rng.range(1, 2 * share)) };
        let holds = last && left > 0 || level < 60 && rng.chance(1, share);
        let kind = if !holds { U32 } else { *rng.pick(if most == 1 { &[ARRAY, STRUCT][..] } else { &[ARRAY, MAP, STRUCT] }) };
        let children = match kind { U32 => 0, MAP => most & !1, _ => most };
        out.extend(row(kind, name, levels.len(), children));
        levels.extend(vec![(level + 1, kind == STRUCT); children]);
    }
    out
}

/// A number's row, or a container's.
fn row(kind: u8, name: u32, first: usize, children: usize) -> Vec<u8> {
    let (first, children) = (first as u32, children as u32);
    let fields = match kind {
        ARRAY => [first, children, 0, 0],
        MAP => [first, children / 2, 0, 0],
        STRUCT => [0x40, first, children, 0],
        _ => [first, 0, 0, 0],
    };
    let mut out = vec![kind, 0, 0, 0];
    push_u32(&mut out, name);
    fields.iter().for_each(|x| push_u32(&mut out, *x));
    out
}
