//! A smaller case that fails in the same way.
use crate::gen::plan::{Body, Def, Plan, Section};
use crate::gen::tree::{Tree, NULL_LEAF};
use crate::gen::Case;
use crate::model::schema::{Definitions, Schema};
use crate::model::{Limits, GENEROUS};
use std::time::{Duration, Instant};

/// Tries smaller cases as long as one fails, for a minute at most.
pub fn shrink(case: &Case, fails: &mut dyn FnMut(&Case) -> bool) -> Case {
    let end = Instant::now() + Duration::from_secs(60);
    let mut best = case.clone();
    loop {
        let mut better = None;
        for next in candidates(&best) {
            if Instant::now() > end {
                return best;
            }
            if next != best && weight(&next) < weight(&best) && fails(&next) {
                better = Some(next);
                break;
            }
        }
        match better {
            Some(next) => best = next,
            None => return best,
        }
    }
}

/// Bytes first, then values that are not zero, then lengths.
fn weight(c: &Case) -> (usize, u64, u64) {
    let digits: u64 = c.sheet.iter().chain(&c.schema).map(|b| (*b != 0) as u64 * 256 + *b as u64).sum();
    let l = &c.limits;
    (c.sheet.len() + c.schema.len(), digits, l.work.saturating_add(l.out).saturating_add(l.records))
}

fn candidates(c: &Case) -> Vec<Case> {
    let mut out = Vec::new();
    for schema in schemas(&c.schema) {
        out.push(Case { schema, ..c.clone() });
    }
    for sheet in sheets(&c.sheet) {
        out.push(Case { sheet, ..c.clone() });
    }
    for limits in all_limits(c) {
        out.push(Case { limits, ..c.clone() });
    }
    // A smaller pack needs less: the limits follow it.
    let with_room: Vec<Case> = out.iter().map(|n| Case { limits: roomy(n), ..n.clone() }).collect();
    out.extend(with_room);
    out
}

/// Limits that are just enough.
fn roomy(c: &Case) -> Limits {
    let o = c.within(&GENEROUS);
    let work = crate::gen::limits::work_for(o.index_entries.unwrap_or(0), o.charge);
    Limits { work, out: o.answer.as_ref().map_or(0, |p| p.file.len() as u64), records: o.remarks as u64 }
}

fn all_limits(c: &Case) -> Vec<Limits> {
    let l = c.limits;
    let enough = roomy(c);
    let mut out = vec![enough];
    out.extend([Limits { work: enough.work, ..l }, Limits { out: enough.out, ..l }, Limits { records: enough.records, ..l }]);
    out.extend([Limits { records: 0, ..l }, Limits { out: 0, ..l }, Limits { work: l.work / 2, ..l }]);
    out.extend([Limits { records: l.records / 2, ..l }, Limits { out: l.out / 2, ..l }]);
    out
}

/// Parts taken out of bytes, and words set to zero.
fn cut_bytes(bytes: &[u8]) -> Vec<Vec<u8>> {
    let mut out = vec![Vec::new()];
    let n = bytes.len();
    let mut step = n / 2;
    while step >= 1 {
        for at in (0..n).step_by(step.max(n / 64 + 1)) {
            let mut b = bytes.to_vec();
            b.drain(at..(at + step).min(n));
            out.push(b);
        }
        step /= 2;
    }
    for at in 0..n.min(2_000) {
        if bytes[at] != 0 {
            let mut b = bytes.to_vec();
            b[at] = 0;
            out.push(b);
        }
    }
    out
}

fn sheets(sheet: &[u8]) -> Vec<Vec<u8>> {
    match Tree::of(sheet) {
        Some(tree) => smaller_trees(&tree).iter().map(Tree::sheet).collect(),
        None => cut_bytes(sheet),
    }
}

/// Lists with a part taken out, and with one element made smaller.
fn smaller_lists<T: Clone>(v: &[T], unit: usize, smaller: impl Fn(&T) -> Vec<T>) -> Vec<Vec<T>> {
    let mut out = Vec::new();
    let n = v.len();
    let mut step = n;
    while step >= unit && step > 0 {
        step -= step % unit;
        for at in (0..n).step_by(step) {
            let mut w = v.to_vec();
            w.drain(at..(at + step).min(n));
            out.push(w);
        }
        step /= 2;
    }
    for (i, x) in v.iter().enumerate().take(300) {
        for y in smaller(x) {
            let mut w = v.to_vec();
            w[i] = y;
            out.push(w);
        }
    }
    out
}

fn smaller_trees(t: &Tree) -> Vec<Tree> {
    let below = |v: &[Tree], unit| smaller_lists(v, unit, |x| [vec![NULL_LEAF], smaller_trees(x)].concat());
    match t {
        Tree::Leaf(kind, f) => {
            let mut out = Vec::new();
            for k in 0..4 {
                for x in [0, 1, f[k] / 2] {
                    if x < f[k] {
                        let mut g = *f;
                        g[k] = x;
                        out.push(Tree::Leaf(*kind, g));
                    }
                }
            }
            out
        }
        Tree::Text(s) => cut_bytes(s).into_iter().filter(|b| b.len() < s.len()).map(Tree::Text).collect(),
        Tree::Array(v) => below(v, 1).into_iter().map(Tree::Array).collect(),
        Tree::Map(v) => below(v, 2).into_iter().map(Tree::Map).collect(),
        Tree::Struct(ty, f) => {
            let fields = |x: &(u32, Tree)| [vec![NULL_LEAF], smaller_trees(&x.1)].concat().into_iter().map(|y| (x.0, y)).collect();
            smaller_lists(f, 1, fields).into_iter().map(|g| Tree::Struct(*ty, g)).collect()
        }
    }
}

/// A schema file with nothing but its definitions.
fn plain(d: &Definitions) -> Plan {
    let structures = d.structures.iter().map(|s| (s.name, Body::Structure(s.unknown, s.size, 0, s.members.to_vec())));
    let enums = d.enums.iter().map(|e| (e.name, Body::Enum(e.entries.to_vec())));
    Plan::of(structures.chain(enums).collect())
}

fn smaller_body(b: &Body) -> Vec<Body> {
    match b {
        Body::Structure(unknown, size, word, members) => {
            let mut out: Vec<Body> = smaller_lists(members, 1, |m| {
                let mut v = Vec::new();
                for (offset, reference, subtype) in [(0, m.reference, m.subtype), (m.offset, 0, m.subtype), (m.offset, m.reference, 0), (m.offset / 2, m.reference, m.subtype), (m.offset, m.reference / 2, m.subtype)] {
                    v.push(crate::model::schema::Member { offset, reference, subtype, ..*m });
                }
                v
            })
            .into_iter()
            .map(|m| Body::Structure(*unknown, *size, *word, m))
            .collect();
            for s in [0, size / 2, size.saturating_sub(1)] {
                out.push(Body::Structure(0, s, 0, members.clone()));
            }
            out
        }
        Body::Enum(entries) => smaller_lists(entries, 1, |_| Vec::new()).into_iter().map(Body::Enum).collect(),
        _ => Vec::new(),
    }
}

fn schemas(schema: &[u8]) -> Vec<Vec<u8>> {
    let Ok(read) = Schema::read(schema) else { return cut_bytes(schema) };
    let plan = plain(&read.all);
    let mut out = vec![plan.bytes()];
    if plan.bytes().len() > schema.len() {
        out.extend(cut_bytes(schema));
    }
    let Section::Psch(defs) = &plan.sections[0] else { return out };
    let smaller = |d: &Def| smaller_body(&d.body).into_iter().map(|body| Def { body, ..d.clone() }).collect();
    for d in smaller_lists(defs, 1, smaller) {
        out.push(Plan { sections: vec![Section::Psch(d)], tail: Vec::new() }.bytes());
    }
    out
}

/// A smaller file that fails in the same way.
pub fn shrink_file(file: &[u8], fails: &mut dyn FnMut(&[u8]) -> bool) -> Vec<u8> {
    let end = Instant::now() + Duration::from_secs(60);
    let mut best = file.to_vec();
    loop {
        let next = cut_bytes(&best).into_iter().find(|b| {
            let lighter = (b.len(), b.iter().map(|x| *x as u64).sum::<u64>()) < (best.len(), best.iter().map(|x| *x as u64).sum::<u64>());
            lighter && Instant::now() < end && fails(b)
        });
        match next {
            Some(b) => best = b,
            None => return best,
        }
    }
}
