//! libsandvurek.a by its C interface. A slice passes as pointer, then length.
use super::{Read, Subject};
use crate::model::reader::FileBlock;
use crate::model::schema::{Enumeration, Member as ModelMember, Structure};
#[cfg(builds)]
use {super::Reply, crate::gen::Case};

#[repr(C)]
struct Reading {
    code: u32,
    root: u32,
    data_at: usize,
    data_length: usize,
    blocks: usize,
}

#[repr(C)]
struct Block {
    found: u32,
    name: u32,
    place: u32,
    length: u32,
}

#[repr(C)]
struct Definition {
    found: u32,
    unknown: u32,
    size: u32,
    count: u32,
    at: usize,
}

#[repr(C)]
struct Member {
    name: u32,
    kind: u32,
    subtype: u32,
    offset: u32,
    reference: u32,
}

#[repr(C)]
struct Entry {
    name: u32,
    value: u32,
}

extern "C" {
    fn sandvurek_read(file: *const u8, length: usize) -> Reading;
    fn sandvurek_block(file: *const u8, length: usize, number: usize) -> Block;
    fn sandvurek_structure(file: *const u8, length: usize, name: u32) -> Definition;
    fn sandvurek_enum(file: *const u8, length: usize, name: u32) -> Definition;
    fn sandvurek_member(file: *const u8, length: usize, at: usize, index: u32) -> Member;
    fn sandvurek_entry(file: *const u8, length: usize, at: usize, index: u32) -> Entry;
}

pub struct Library;

/// The number of blocks, or the refusal.
pub fn call_read(file: &[u8]) -> Result<usize, u32> {
    let r = unsafe { sandvurek_read(file.as_ptr(), file.len()) };
    if r.code == 0 { Ok(r.blocks) } else { Err(r.code) }
}

impl Subject for Library {
    #[cfg(builds)]
    fn build(&mut self, case: &Case) -> Result<Reply, String> {
        super::building::build(case)
    }

    fn builds(&self) -> bool {
        cfg!(builds)
    }

    fn reads(&self) -> bool {
        true
    }

    fn read(&mut self, file: &[u8]) -> Read {
        let r = unsafe { sandvurek_read(file.as_ptr(), file.len()) };
        let block = |k: usize| {
            let b = unsafe { sandvurek_block(file.as_ptr(), file.len(), k) };
            if b.found == 1 { FileBlock { name: b.name, place: b.place, length: b.length } } else { FileBlock { name: 0, place: u32::MAX, length: u32::MAX } }
        };
        let blocks = if r.code == 0 { (1..=r.blocks).map(block).collect() } else { Vec::new() };
        Read { code: r.code, root: r.root, data: (r.data_at, r.data_length), blocks }
    }

    fn structure(&mut self, file: &[u8], name: u32) -> Option<Structure> {
        let d = unsafe { sandvurek_structure(file.as_ptr(), file.len(), name) };
        (d.found == 1).then(|| {
            let member = |k| {
                let m = unsafe { sandvurek_member(file.as_ptr(), file.len(), d.at, k) };
                ModelMember { name: m.name, ty: m.kind as u8, subtype: m.subtype as u8, offset: m.offset as u16, reference: m.reference }
            };
            Structure { name, unknown: d.unknown as u8, size: d.size, members: (0..d.count).map(member).collect() }
        })
    }

    fn enumeration(&mut self, file: &[u8], name: u32) -> Option<Enumeration> {
        let d = unsafe { sandvurek_enum(file.as_ptr(), file.len(), name) };
        (d.found == 1).then(|| {
            let entry = |k| {
                let e = unsafe { sandvurek_entry(file.as_ptr(), file.len(), d.at, k) };
                (e.name, e.value)
            };
            Enumeration { name, entries: (0..d.count).map(entry).collect() }
        })
    }

    fn edges(&mut self, file: &[u8], blocks: usize) -> Result<(), String> {
        for k in [0, blocks + 1, usize::MAX] {
            if unsafe { sandvurek_block(file.as_ptr(), file.len(), k) }.found != 0 {
                return Err(format!("block {k} of {blocks} is found"));
            }
        }
        Ok(())
    }
}
