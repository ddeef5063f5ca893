//! What is under test: a library or a program that builds, and may read.
#[cfg(builds)]
pub mod building;
#[cfg(library)]
pub mod library;
pub mod process;
pub mod stream;

use crate::gen::Case;
use crate::model::reader::FileBlock;
use crate::model::schema::{Enumeration, Structure};
use crate::model::state::Remark;
use crate::model::Outcome;

/// All bytes of the work area are zero after the call.
pub const WORK_ZERO: u64 = 1;
/// The output behind the file, or all of it, is what it was.
pub const REST_UNTOUCHED: u64 = 2;
/// The remark records behind the count are zero.
pub const RECORDS_ZERO: u64 = 4;

#[derive(Clone, Debug, PartialEq)]
pub struct Reply {
    pub code: u64,
    pub flags: u64,
    pub file: Vec<u8>,
    pub remarks: Vec<Remark>,
}

/// What the reader of the subject says of a file.
#[derive(Clone, Debug, PartialEq)]
pub struct Read {
    pub code: u32,
    pub root: u32,
    pub data: (usize, usize),
    pub blocks: Vec<FileBlock>,
}

pub trait Subject {
    fn build(&mut self, _case: &Case) -> Result<Reply, String> {
        unreachable!()
    }
    /// Whether it builds.
    fn builds(&self) -> bool {
        true
    }

    /// Whether the functions below are there.
    fn reads(&self) -> bool {
        false
    }
    fn read(&mut self, _file: &[u8]) -> Read {
        unreachable!()
    }
    fn structure(&mut self, _file: &[u8], _name: u32) -> Option<Structure> {
        unreachable!()
    }
    fn enumeration(&mut self, _file: &[u8], _name: u32) -> Option<Enumeration> {
        unreachable!()
    }
    /// Block numbers that no file has, and the like.
    fn edges(&mut self, _file: &[u8], _blocks: usize) -> Result<(), String> {
        Ok(())
    }
}

/// The reply that the model expects.
pub fn expected(outcome: &Outcome) -> Reply {
    let flags = WORK_ZERO | REST_UNTOUCHED | RECORDS_ZERO;
    match &outcome.answer {
        Ok(p) => Reply { code: 0, flags, file: p.file.clone(), remarks: p.remarks.clone() },
        Err(n) => Reply { code: *n as u64, flags, file: Vec::new(), remarks: Vec::new() },
    }
}

/// How a reply differs from the expected one.
pub fn difference(reply: &Reply, want: &Reply) -> Option<String> {
    if reply.code != want.code {
        return Some(format!("code {}, expected {}", reply.code, want.code));
    }
    if reply.file.len() != want.file.len() {
        return Some(format!("length {}, expected {}", reply.file.len(), want.file.len()));
    }
    if let Some(at) = (0..want.file.len()).find(|i| reply.file[*i] != want.file[*i]) {
        return Some(format!("file differs at byte {at}: {:02X}, expected {:02X}", reply.file[at], want.file[at]));
    }
    if reply.remarks.len() != want.remarks.len() {
        return Some(format!("{} remarks, expected {}", reply.remarks.len(), want.remarks.len()));
    }
    if let Some(k) = (0..want.remarks.len()).find(|k| reply.remarks[*k] != want.remarks[*k]) {
        return Some(format!("remark {k} is {:X?}, expected {:X?}", reply.remarks[k], want.remarks[k]));
    }
    let names = [(WORK_ZERO, "the work area is not zero"), (REST_UNTOUCHED, "output was touched"), (RECORDS_ZERO, "records behind the count are not zero")];
    names.iter().find(|(bit, _)| reply.flags & bit == 0).map(|(_, text)| text.to_string())
}
