//! libsandvurek.a by its C interface, include/sandvurek.h. A slice passes as pointer, then length.
use serde::Serialize;
use std::alloc::{alloc_zeroed, Layout};

#[repr(C)]
struct Outcome {
    code: u32,
    length: usize,
    remarks: usize,
}

#[derive(Clone, Copy, Serialize)]
#[repr(C)]
pub struct Remark {
    pub kind: u32,
    pub structure: u32,
    pub member: u32,
    pub detail: u32,
}

#[repr(C)]
pub struct Reading {
    pub code: u32,
    pub root: u32,
    pub data_at: usize,
    pub data_length: usize,
    pub blocks: usize,
}

#[derive(Clone, Copy, PartialEq)]
#[repr(C)]
pub struct Member {
    pub name: u32,
    pub kind: u32,
    pub subtype: u32,
    pub offset: u32,
    pub reference: u32,
}

#[derive(Clone, Copy, PartialEq)]
#[repr(C)]
pub struct Entry {
    pub name: u32,
    pub value: u32,
}

extern "C" {
    fn sandvurek_build_with(
        root_alone: u32,
        sheet: *const u8,
        sheet_length: usize,
        schema: *const u8,
        schema_length: usize,
        work: *mut u8,
        work_length: usize,
        out: *mut u8,
        out_length: usize,
        remarks: *mut Remark,
        records: usize,
    ) -> Outcome;
    fn sandvurek_read(file: *const u8, length: usize) -> Reading;
    fn sandvurek_member(file: *const u8, length: usize, at: usize, index: u32) -> Member;
    fn sandvurek_entry(file: *const u8, length: usize, at: usize, index: u32) -> Entry;
}

/// No pack is longer.
pub const LONGEST_PACK: usize = 16_777_216;
/// The work area without the schema's index entries and the scene.
pub const LEAST_WORK: usize = 65_536;
/// The charge never goes above this; each unit takes four bytes of the work area.
pub const LARGEST_CHARGE: usize = 4_194_304;

pub struct Built {
    /// 0, or the refusal's number.
    pub code: u32,
    pub file: Vec<u8>,
    pub remarks: Vec<Remark>,
}

/// A buffer of zeros to lend, or a message. The system gives it without writing it.
fn lend<T: Zero>(count: usize, what: &str) -> Result<Vec<T>, String> {
    let short = || format!("not enough memory for the {what}");
    let layout = Layout::array::<T>(count).map_err(|_| short())?;
    if layout.size() == 0 {
        return Ok(Vec::new());
    }
    let memory = unsafe { alloc_zeroed(layout) }.cast::<T>();
    if memory.is_null() {
        return Err(short());
    }
    Ok(unsafe { Vec::from_raw_parts(memory, count, count) })
}

/// What zero bytes are a value of.
trait Zero {}
impl Zero for u8 {}
impl Zero for Remark {}

/// The lengths of the buffers that building is lent.
#[derive(Clone, Copy, PartialEq)]
pub struct Lent {
    pub work: usize,
    pub out: usize,
    pub records: usize,
}

/// Packs a sheet with a schema file, where `alone` says so with the root in a new last block.
pub fn build(alone: bool, sheet: &[u8], schema: &[u8], lent: Lent) -> Result<Built, String> {
    let mut work = lend::<u8>(lent.work, "work area")?;
    let mut file = lend::<u8>(lent.out, "pack")?;
    let mut remarks = lend::<Remark>(lent.records, "remarks")?;
    let o = unsafe {
        sandvurek_build_with(
            alone.into(),
            sheet.as_ptr(),
            sheet.len(),
            schema.as_ptr(),
            schema.len(),
            work.as_mut_ptr(),
            work.len(),
            file.as_mut_ptr(),
            file.len(),
            remarks.as_mut_ptr(),
            remarks.len(),
        )
    };
    file.truncate(o.length);
    file.shrink_to_fit();
    remarks.truncate(o.remarks);
    Ok(Built { code: o.code, file, remarks })
}

/// Refusals 1 to 7 and 12 come before the root is laid, in either way.
const NOTHING: Lent = Lent { work: 0, out: 0, records: 0 };

/// 0, or refusal 1, 2 or 3: a sheet that has none of them meets 7 with a schema file that is empty.
pub fn check_sheet(sheet: &[u8]) -> Result<u32, String> {
    let code = build(false, sheet, &[], NOTHING)?.code;
    Ok(if code == 7 { 0 } else { code })
}

/// Whether one of 1 to 7 refuses it: what has none of them meets 12 with no work area.
pub fn is_refused_early(sheet: &[u8], schema: &[u8]) -> bool {
    build(false, sheet, schema, NOTHING).is_ok_and(|built| built.code != 12)
}

/// A sheet whose root is a Struct of type 0 without members.
const LEAST_SHEET: [u8; 28] = {
    let mut sheet = [0; 28];
    sheet[3] = 1;
    sheet[4] = 21;
    sheet[19] = 1;
    sheet
};

/// 0, or refusal 4, 5 or 6: a schema file that has none of them meets 7, or 12 with no work area.
pub fn check_schema(schema: &[u8]) -> Result<u32, String> {
    let code = build(false, &LEAST_SHEET, schema, NOTHING)?.code;
    Ok(if (4..=6).contains(&code) { code } else { 0 })
}

pub fn read(file: &[u8]) -> Reading {
    unsafe { sandvurek_read(file.as_ptr(), file.len()) }
}

/// The member of a number, from 0, of the structure at a place.
pub fn member(file: &[u8], at: usize, index: u32) -> Member {
    unsafe { sandvurek_member(file.as_ptr(), file.len(), at, index) }
}

/// The entry of a number, from 0, of the enum at a place.
pub fn entry(file: &[u8], at: usize, index: u32) -> Entry {
    unsafe { sandvurek_entry(file.as_ptr(), file.len(), at, index) }
}
