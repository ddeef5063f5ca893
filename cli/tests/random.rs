//! Random scenes, packed and accepted: random PROGRAM DIRECTORY COUNT
//!
//! The pack of each of the first COUNT scenes has every definition that the sheet names: it is accepted with the schema
//! file and without it. A third as many further ones lack some: they are accepted with the schema file; without it the
//! verdict may be either, since a definition that the schema file lacks looks like one that was left behind.
//!
//! Half of them are packed with the root alone. The other way accepts a pack where it gives the same, and nowhere else.
use sandvurek_model::gen::{inputs, Size};
use sandvurek_model::model::schema::Schema;
use sandvurek_model::model::sheet::{Sheet, STRUCT};
use sandvurek_model::model::{build, GENEROUS};
use sandvurek_model::rng::Rng;
use std::path::Path;
use std::process::{Command, Stdio};
use std::{env, fs};

/// No remark of the rebuild speaks of a definition, and each Struct's type is there.
fn complete(alone: bool, sheet: &[u8], pack: &[u8]) -> bool {
    let (Ok(rows), Ok(schema)) = (Sheet::read(sheet), Schema::read(pack)) else { return false };
    let again = build(alone, sheet, pack, &GENEROUS);
    let remarks = again.answer.is_ok_and(|p| p.remarks.iter().all(|r| !matches!(r.kind, 4 | 7 | 8)));
    remarks && rows.rows.iter().filter(|r| r.kind == STRUCT).all(|r| schema.structure(r.a).is_some())
}

/// The program's status with these words, in one of the ways.
fn status(program: &str, alone: bool, words: &[&str]) -> i32 {
    let way = alone.then_some("--root-alone");
    let ran = Command::new(program).args(words).args(way).stdout(Stdio::null()).stderr(Stdio::null()).status();
    ran.expect("the program").code().unwrap_or(-1)
}

/// The statuses of packing it, of accepting it with the schema file, in its way and in the other, and without.
fn statuses(program: &str, alone: bool, [sheet, schema, pack]: [&str; 3]) -> [i32; 4] {
    let packed = status(program, alone, &["pack", sheet, "--schema", schema, "-o", pack]);
    let accepted = |way| status(program, way, &["accept", pack, "--sheet", sheet, "--schema", schema]);
    [packed, accepted(alone), accepted(!alone), status(program, alone, &["accept", pack, "--sheet", sheet])]
}

fn main() {
    let words: Vec<String> = env::args().skip(1).collect();
    let [program, directory, count] = &words[..] else { panic!("three words") };
    let count: usize = count.parse().expect("a count");
    let path = |end: &str| Path::new(directory).join(format!("random.{end}")).to_str().expect("a name").to_string();
    let (sheet, schema, pack) = (path("sheet"), path("schema"), path("pso"));
    let (mut made, mut bare, mut differ, mut wrong) = (0, 0, 0, Vec::new());
    for case in 0.. {
        if made == count && bare == count / 3 {
            break;
        }
        let size = if case % 4 == 0 { Size::Small } else { Size::Tiny };
        let (_, t, s) = inputs(&mut Rng::of(2_026, case), size);
        let alone = case % 8 >= 4;
        let Ok(built) = build(alone, &t, &s, &GENEROUS).answer else { continue };
        let whole = complete(alone, &t, &built.file);
        let enough = if whole { made == count } else { bare == count / 3 };
        if built.file.len() < 200 || built.remarks.len() > 4_096 || enough {
            continue;
        }
        fs::write(&sheet, &t).and_then(|()| fs::write(&schema, &s)).expect("a file");
        let [packed, with, other, without] = statuses(program, alone, [&sheet, &schema, &pack]);
        let one = build(!alone, &t, &s, &GENEROUS).answer.map_or(true, |p| p.file != built.file);
        if (packed, with, other) != (0, 0, i32::from(one)) || without > i32::from(!whole) {
            wrong.push(format!("case {case}: {packed}, {with}, {other}, {without}"));
        }
        differ += usize::from(one);
        if whole {
            made += 1;
        } else {
            bare += 1;
        }
    }
    println!(
        "{made} packed and accepted, {bare} with the schema file, {differ} in one way, {} not {}",
        wrong.len(),
        wrong.first().cloned().unwrap_or_default()
    );
}
