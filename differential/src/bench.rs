//! Times of both sides on the same inputs, in one run.
use crate::gen::limits::work_for;
use crate::model::{build, GENEROUS, MAX_CHARGE};
use crate::reference_side as reference;
use crate::scene::{large_file, scenes, Scene};
use std::hint::black_box;
use std::time::Instant;

/// The middle of nine samples, each of 20 ms at least, in microseconds a call.
fn time(mut f: impl FnMut()) -> f64 {
    let mut calls = 1u32;
    let mut once = |n: u32| {
        let t = Instant::now();
        (0..n).for_each(|_| f());
        t.elapsed().as_secs_f64()
    };
    while once(calls) < 0.02 {
        calls *= 2;
    }
    let mut samples: Vec<f64> = (0..9).map(|_| once(calls) / calls as f64 * 1e6).collect();
    samples.sort_by(f64::total_cmp);
    samples[4]
}

/// Calls of the library with a work area of the given length.
#[cfg(builds)]
fn library(scene: &Scene, work: usize, out: usize, records: usize) -> Option<f64> {
    use crate::model::state::Remark;
    let mut work = vec![1u8; work];
    let mut out = vec![1u8; out];
    let mut list = vec![Remark { kind: 0, structure: 0, member: 0, detail: 0 }; records];
    let mut call = || crate::subject::building::call(&scene.sheet, &scene.schema, &mut work, &mut out, &mut list);
    assert_eq!(call().0, 0, "{} is refused", scene.name);
    Some(time(|| {
        black_box(call());
    }))
}

#[cfg(not(builds))]
fn library(_scene: &Scene, _work: usize, _out: usize, _records: usize) -> Option<f64> {
    None
}

/// The check of the sheet alone: with no definitions 7 is the answer, before work is looked at.
#[cfg(builds)]
fn library_check(scene: &Scene) -> Option<f64> {
    let call = || crate::subject::building::call(&scene.sheet, &[], &mut [], &mut [], &mut []);
    assert_eq!(call().0, 7, "{} is refused", scene.name);
    Some(time(|| {
        black_box(call());
    }))
}

#[cfg(not(builds))]
fn library_check(_scene: &Scene) -> Option<f64> {
    None
}

#[cfg(library)]
fn library_read(file: &[u8]) -> Option<f64> {
    use crate::subject::library::call_read;
    assert!(call_read(file).is_ok());
    Some(time(|| {
        black_box(call_read(black_box(file))).ok();
    }))
}

#[cfg(not(library))]
fn library_read(_file: &[u8]) -> Option<f64> {
    None
}

fn micros(t: Option<f64>) -> String {
    t.map_or("-".into(), |x| format!("{x:.1}"))
}

fn ratio(reference: f64, library: Option<f64>) -> String {
    library.map_or("-".into(), |x| format!("{:.2}", reference / x))
}

/// `from_pso` and `build_pso`, on a tree that is decoded already, and with decoding.
fn reference_times(scene: &Scene) -> (f64, f64) {
    let tree = reference::tree(&scene.sheet);
    let packed = |tree: &_| {
        let schema = ::reference::schema::Schema::from_pso_bytes(&scene.schema).expect("a schema");
        ::reference::pso_write::build_pso(tree, &schema).expect("a pack")
    };
    let ready = time(|| {
        black_box(packed(black_box(&tree)));
    });
    let decoded = time(|| {
        black_box(packed(&reference::tree(black_box(&scene.sheet))));
    });
    (ready, decoded)
}

pub fn bench() {
    println!("microseconds a call, the middle of nine samples; a ratio above 1 says how many times the library is faster");
    println!("| input | rows | sheet | schema | file | reference | with decoding | library, work tight | ratio | library, work 16 MB | ratio |");
    println!("|---|---|---|---|---|---|---|---|---|---|---|");
    let (mut lent, mut checked) = (None, Vec::new());
    for s in scenes() {
        let outcome = build(false, &s.sheet, &s.schema, &GENEROUS);
        let entries = outcome.index_entries.unwrap_or(0);
        let pack = outcome.answer.unwrap_or_else(|n| panic!("{} is refused with {n}", s.name));
        let (file, records) = (pack.file.len(), pack.remarks.len());
        let (ready, decoded) = reference_times(&s);
        let tight = library(&s, work_for(entries, pack.charge) as usize, file, records);
        let roomy = library(&s, work_for(entries, MAX_CHARGE) as usize, file, records);
        let rows = u32::from_be_bytes(s.sheet[..4].try_into().unwrap());
        if s.name == "typical scene" {
            lent = library(&s, work_for(entries, pack.charge) as usize, file, records + 4_096);
        }
        if !s.name.ends_with("definitions") {
            checked.push(format!("{} {}", s.name, micros(library_check(&s))));
        }
        println!(
            "| {} | {rows} | {} | {} | {file} | {ready:.1} | {decoded:.1} | {} | {} | {} | {} |",
            s.name, s.sheet.len(), s.schema.len(), micros(tight), ratio(ready, tight), micros(roomy), ratio(ready, roomy)
        );
    }
    let file = large_file();
    let parsed = time(|| {
        black_box(::reference::pso::parse_pso(black_box(&file)).expect("a file"));
    });
    let read = library_read(&file);
    let mut area = vec![1u8; 65_536];
    let least = time(|| black_box(&mut area).fill(0));
    let mut area = vec![1u8; work_for(0, MAX_CHARGE) as usize];
    let most = time(|| black_box(&mut area).fill(0));
    println!("| reading a file of 10 MB | - | - | - | {} | {parsed:.1} | - | {} | {} | - | - |", file.len(), micros(read), ratio(parsed, read));
    println!("The typical scene with 4,096 records more than it has remarks: {}.", micros(lent));
    println!("The check of the sheet alone: {}.", checked.join(", "));
    println!("Every call leaves its work area zero: clearing 65,536 bytes takes {least:.1}, clearing 16 MB {most:.1}.");
}
