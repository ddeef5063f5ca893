//! Building by libsandvurek.a.
use super::{Reply, RECORDS_ZERO, REST_UNTOUCHED, WORK_ZERO};
use crate::gen::Case;
use crate::model::state::Remark;
use std::sync::OnceLock;

#[repr(C)]
struct Outcome {
    code: u32,
    length: usize,
    remarks: usize,
}

extern "C" {
    fn sandvurek_build(
        sheet: *const u8, sheet_length: usize, schema: *const u8, schema_length: usize, work: *mut u8, work_length: usize,
        out: *mut u8, out_length: usize, remarks: *mut Remark, records: usize,
    ) -> Outcome;
    fn sandvurek_build_with(
        root_alone: u32, sheet: *const u8, sheet_length: usize, schema: *const u8, schema_length: usize, work: *mut u8,
        work_length: usize, out: *mut u8, out_length: usize, remarks: *mut Remark, records: usize,
    ) -> Outcome;
}

/// Any number but 0 says that the root gets a new last block.
const ALONE: [u32; 5] = [1, 2, 0x100, 0x8000_0000, u32::MAX];

/// What `sandvurek_build_with` is told, or none where `sandvurek_build` is called: picked by the case's lengths.
fn root_alone(case: &Case) -> Option<u32> {
    let l = &case.limits;
    let k = (case.sheet.len() + case.schema.len()) as u64 + l.work + l.out + l.records;
    if case.alone {
        return Some(ALONE[(k % 5) as usize]);
    }
    (k % 3 == 0).then_some(0)
}

/// The call of a case with these areas, by one of the two functions.
unsafe fn called(case: &Case, work: *mut u8, out: *mut u8, remarks: *mut Remark) -> Outcome {
    let (sheet, sheet_length) = (case.sheet.as_ptr(), case.sheet.len());
    let (schema, schema_length) = (case.schema.as_ptr(), case.schema.len());
    let [work_length, out_length, records] = [case.limits.work, case.limits.out, case.limits.records].map(|n| n as usize);
    match root_alone(case) {
        None => sandvurek_build(sheet, sheet_length, schema, schema_length, work, work_length, out, out_length, remarks, records),
        Some(flag) => {
            sandvurek_build_with(flag, sheet, sheet_length, schema, schema_length, work, work_length, out, out_length, remarks, records)
        }
    }
}

/// Bytes that stand in lent buffers before a call; never zero.
fn noise() -> &'static [u8] {
    static NOISE: OnceLock<Vec<u8>> = OnceLock::new();
    NOISE.get_or_init(|| (0..20 << 20).map(|i: u32| (i as u8).wrapping_mul(37) | 1).collect())
}

/// Bytes in front of a lent buffer and behind it, which no call may touch.
const GUARD: usize = 64;

/// A buffer full of noise with guards on both sides.
struct Lent(Vec<u8>);

impl Lent {
    fn new(n: usize) -> Lent {
        Lent(noise()[..n + 2 * GUARD].to_vec())
    }

    fn inner(&self) -> &[u8] {
        &self.0[GUARD..self.0.len() - GUARD]
    }

    fn pointer(&mut self) -> *mut u8 {
        self.0[GUARD..].as_mut_ptr()
    }

    fn is_noise(&self, from: usize, to: usize) -> bool {
        self.0[from..to] == noise()[from..to]
    }

    fn guarded(&self) -> bool {
        let n = self.0.len();
        self.is_noise(0, GUARD) && self.is_noise(n - GUARD, n)
    }
}

/// One call of `sandvurek_build`, timed by the caller.
pub fn call(sheet: &[u8], schema: &[u8], work: &mut [u8], out: &mut [u8], remarks: &mut [Remark]) -> (u32, usize, usize) {
    let o = unsafe {
        sandvurek_build(
            sheet.as_ptr(), sheet.len(), schema.as_ptr(), schema.len(), work.as_mut_ptr(), work.len(), out.as_mut_ptr(), out.len(),
            remarks.as_mut_ptr(), remarks.len(),
        )
    };
    (o.code, o.length, o.remarks)
}

/// One case: the reply, and whether the lent buffers are as document 01 says.
pub fn build(case: &Case) -> Result<Reply, String> {
    let (n, records) = (case.limits.out as usize, case.limits.records as usize);
    let mut work = Lent::new(case.limits.work as usize);
    let mut out = Lent::new(n);
    const NOISE: Remark = Remark { kind: 0xA5A5, structure: 0xA5A5_A5A5, member: 1, detail: u32::MAX };
    let mut list = vec![NOISE; records + 2];
    let o = unsafe { called(case, work.pointer(), out.pointer(), list[1..].as_mut_ptr()) };
    if !work.guarded() || !out.guarded() || list[0] != NOISE || list[records + 1] != NOISE {
        return Err("bytes outside a lent buffer were written".into());
    }
    if o.length > n || o.remarks > records {
        return Err(format!("length {} of {n}, {} remarks of {records}", o.length, o.remarks));
    }
    let list = &list[1..records + 1];
    let zero = Remark { kind: 0, structure: 0, member: 0, detail: 0 };
    let mut flags = 0;
    if work.inner().iter().all(|b| *b == 0) {
        flags |= WORK_ZERO;
    }
    if out.is_noise(GUARD + o.length, GUARD + n) {
        flags |= REST_UNTOUCHED;
    }
    if list[o.remarks..].iter().all(|r| *r == zero) {
        flags |= RECORDS_ZERO;
    }
    Ok(Reply { code: o.code as u64, flags, file: out.inner()[..o.length].to_vec(), remarks: list[..o.remarks].to_vec() })
}
