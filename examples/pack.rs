//! Packs a sheet with a schema file: pack SHEET SCHEMA OUT
//!
//!     rustc --edition 2021 -L target/staticlib -l static=sandvurek -o pack examples/pack.rs
//!
//! Exit status: 0 packed, 1 refused or failed, 2 wrong use.
use std::{collections::TryReserveError, env, fs, io, io::Write, path::Path, process};

#[repr(C)]
struct Outcome {
    code: u32,
    length: usize,
    remarks: usize,
}

#[derive(Clone, Copy, Default)]
#[repr(C)]
struct Remark {
    kind: u32,
    structure: u32,
    member: u32,
    detail: u32,
}

#[rustfmt::skip]
extern "C" {
    fn sandvurek_build(
        sheet: *const u8, sheet_length: usize, schema: *const u8, schema_length: usize,
        work: *mut u8, work_length: usize, out: *mut u8, out_length: usize,
        remarks: *mut Remark, records: usize,
    ) -> Outcome;
}

/// The pack and its remarks, or the refusal's number.
type Built = Result<(Vec<u8>, Vec<Remark>), u32>;

/// A buffer of zeros, where there is memory for it.
fn zeros<T: Clone + Default>(length: usize) -> Result<Vec<T>, TryReserveError> {
    let mut list = Vec::new();
    list.try_reserve_exact(length)?;
    list.resize(length, T::default());
    Ok(list)
}

fn build(sheet: &[u8], schema: &[u8]) -> Result<Built, TryReserveError> {
    // Enough for the largest pack: an index entry takes 8 bytes, so there are fewer than schema.len() / 8.
    let mut work = zeros(65_536 + schema.len() + 4 * 4_194_304)?;
    let mut out = zeros(16_777_216)?;
    let mut remarks = zeros(4_096)?;
    #[rustfmt::skip]
    let built = unsafe {
        sandvurek_build(
            sheet.as_ptr(), sheet.len(), schema.as_ptr(), schema.len(),
            work.as_mut_ptr(), work.len(), out.as_mut_ptr(), out.len(),
            remarks.as_mut_ptr(), remarks.len(),
        )
    };
    if built.code != 0 {
        return Ok(Err(built.code));
    }
    out.truncate(built.length);
    remarks.truncate(built.remarks);
    Ok(Ok((out, remarks)))
}

/// Writes a file. Where that fails no part of it is left, unless the name is no file's but a device's.
fn save(name: &Path, bytes: &[u8]) -> io::Result<()> {
    let mut file = fs::File::create(name)?;
    let written = file.write_all(bytes);
    if written.is_err() && file.metadata().is_ok_and(|m| m.is_file()) {
        let _ = fs::remove_file(name);
    }
    written
}

/// Which file a refusal is about: the sheet, the schema file, or both together.
fn refusal(code: u32, sheet: &Path, schema: &Path) -> String {
    match code {
        1..=3 | 11 => format!("{}: refusal {code}", sheet.display()),
        4..=6 => format!("{}: refusal {code}", schema.display()),
        _ => format!("{} with {}: refusal {code}", sheet.display(), schema.display()),
    }
}

fn pack(sheet: &Path, schema: &Path, out: &Path) -> Result<(), String> {
    let load = |name: &Path| fs::read(name).map_err(|e| format!("{}: {e}", name.display()));
    let built = build(&load(sheet)?, &load(schema)?).map_err(|e| format!("buffers: {e}"))?;
    let (bytes, remarks) = built.map_err(|code| refusal(code, sheet, schema))?;
    for Remark { kind, structure, member, detail } in remarks {
        eprintln!("remark {kind}: structure 0x{structure:X}, member 0x{member:X}, detail {detail}");
    }
    save(out, &bytes).map_err(|e| format!("{}: {e}", out.display()))
}

fn main() {
    let words: Vec<_> = env::args_os().skip(1).collect();
    let [sheet, schema, out] = &words[..] else {
        eprintln!("pack SHEET SCHEMA OUT");
        process::exit(2);
    };
    if let Err(why) = pack(sheet.as_ref(), schema.as_ref(), out.as_ref()) {
        eprintln!("{why}");
        process::exit(1);
    }
}
