//! The exported leaves.
use crate::oracle::Fit;

#[repr(C)]
struct Unsigned {
    code: u32,
    value: u64,
}

#[repr(C)]
struct Signed {
    code: u32,
    value: i64,
}

#[repr(C)]
struct Small {
    code: u32,
    value: u32,
}

#[repr(C)]
struct Four {
    code: u32,
    v: [u32; 4],
}

extern "C" {
    fn leaf_joaat(s: *const u8, n: usize) -> u32;
    fn leaf_f32_of_i64(x: i64) -> u32;
    fn leaf_f32_rest(x: i64) -> i64;
    fn leaf_i64_of_f32(b: u32) -> i64;
    fn leaf_i64_of(s: *const u8, n: usize, radix: u64) -> Signed;
    fn leaf_u64_of(s: *const u8, n: usize, radix: u64) -> Unsigned;
    fn leaf_hex_u32_of(s: *const u8, n: usize) -> Small;
    fn leaf_parses_float(s: *const u8, n: usize) -> bool;
    fn leaf_trim(s: *const u8, n: usize, out: *mut u8, room: usize) -> usize;
    fn leaf_int_of(s: *const u8, n: usize, r: usize) -> Unsigned;
    fn leaf_float_of(s: *const u8, n: usize, r: usize) -> Small;
    fn leaf_vec_of(s: *const u8, n: usize, r: usize, wanted: usize) -> Four;
    fn leaf_has_str(s: *const u8, n: usize, r: usize) -> bool;
    fn leaf_str_of(s: *const u8, n: usize, r: usize, out: *mut u8, room: usize) -> usize;
    fn leaf_hash_of(s: *const u8, n: usize, r: usize) -> Small;
    fn leaf_enum_value(s: *const u8, n: usize, p: *const u8, m: usize, at: usize, count: usize, r: usize) -> Small;
    fn leaf_flags_bits(s: *const u8, n: usize, p: *const u8, m: usize, at: usize, count: usize, r: usize) -> Small;
}

pub fn joaat(s: &[u8]) -> u32 {
    unsafe { leaf_joaat(s.as_ptr(), s.len()) }
}

pub fn f32_of_i64(x: i64) -> u32 {
    unsafe { leaf_f32_of_i64(x) }
}

pub fn f32_rest(x: i64) -> i64 {
    unsafe { leaf_f32_rest(x) }
}

#[inline(always)]
pub fn i64_of_f32(b: u32) -> i64 {
    unsafe { leaf_i64_of_f32(b) }
}

pub fn i64_of(s: &[u8], radix: u64) -> Fit<i64> {
    let r = unsafe { leaf_i64_of(s.as_ptr(), s.len(), radix) };
    Fit { code: r.code, value: r.value }
}

pub fn u64_of(s: &[u8], radix: u64) -> Fit<u64> {
    let r = unsafe { leaf_u64_of(s.as_ptr(), s.len(), radix) };
    Fit { code: r.code, value: r.value }
}

pub fn hex_u32_of(s: &[u8]) -> Fit<u32> {
    let r = unsafe { leaf_hex_u32_of(s.as_ptr(), s.len()) };
    Fit { code: r.code, value: r.value }
}

pub fn parses_float(s: &[u8]) -> bool {
    unsafe { leaf_parses_float(s.as_ptr(), s.len()) }
}

/// The length of the trimmed text, and what then stands in a buffer of `room` bytes that held 9s.
pub fn trim_into(s: &[u8], room: usize) -> (usize, Vec<u8>) {
    let mut out = vec![9; room];
    let n = unsafe { leaf_trim(s.as_ptr(), s.len(), out.as_mut_ptr(), out.len()) };
    (n, out)
}

pub fn trim(s: &[u8]) -> Vec<u8> {
    let (n, mut out) = trim_into(s, s.len());
    out.truncate(n);
    out
}

pub fn int_of(s: &[u8]) -> Fit<u64> {
    let r = unsafe { leaf_int_of(s.as_ptr(), s.len(), 0) };
    Fit { code: r.code, value: r.value }
}

pub fn float_of(s: &[u8]) -> Fit<u32> {
    let r = unsafe { leaf_float_of(s.as_ptr(), s.len(), 0) };
    Fit { code: r.code, value: r.value }
}

pub fn vec_of(s: &[u8], wanted: usize) -> Fit<[u32; 4]> {
    let r = unsafe { leaf_vec_of(s.as_ptr(), s.len(), 0, wanted) };
    Fit { code: r.code, value: r.v }
}

/// The length of row 0's text, and what then stands in a buffer of `room` bytes that held 9s.
pub fn str_into(s: &[u8], room: usize) -> (usize, Vec<u8>) {
    let mut out = vec![9; room];
    let n = unsafe { leaf_str_of(s.as_ptr(), s.len(), 0, out.as_mut_ptr(), out.len()) };
    (n, out)
}

pub fn str_of(s: &[u8]) -> Option<Vec<u8>> {
    let (n, mut out) = str_into(s, s.len());
    out.truncate(n);
    unsafe { leaf_has_str(s.as_ptr(), s.len(), 0) }.then_some(out)
}

pub fn hash_of(s: &[u8]) -> Fit<u32> {
    let r = unsafe { leaf_hash_of(s.as_ptr(), s.len(), 0) };
    Fit { code: r.code, value: r.value }
}

pub fn enum_value(s: &[u8], p: &[u8], at: usize, n: usize) -> Fit<u32> {
    let r = unsafe { leaf_enum_value(s.as_ptr(), s.len(), p.as_ptr(), p.len(), at, n, 0) };
    Fit { code: r.code, value: r.value }
}

pub fn flags_bits(s: &[u8], p: &[u8], at: usize, n: usize) -> Fit<u32> {
    let r = unsafe { leaf_flags_bits(s.as_ptr(), s.len(), p.as_ptr(), p.len(), at, n, 0) };
    Fit { code: r.code, value: r.value }
}
