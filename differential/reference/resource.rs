//! Stand-in: `schema` and `meta_write` name these in functions for RSC7 files, which are not compared.
use anyhow::Result;

pub const RSC7_MAGIC: u32 = 0;
pub const SYSTEM_BASE: u64 = 0;

pub struct ResReader<'a> {
    pub system: &'a [u8],
    pub graphics: &'a [u8],
}

impl ResReader<'_> {
    pub fn resolve(&self, _at: u64, _length: usize) -> Result<&[u8]> {
        unreachable!()
    }
}

pub struct Pages {
    pub flags: u32,
    pub size: usize,
    pub offsets: Vec<usize>,
}

pub fn prepare_rsc7(_data: &[u8]) -> Result<(Vec<u8>, Vec<u8>)> {
    unreachable!()
}

pub fn pack_pages(_sizes: &[usize], _system: bool, _limit: usize) -> Result<Pages> {
    unreachable!()
}

pub fn rsc7_page_count(_flags: u32) -> usize {
    unreachable!()
}

pub fn build_rsc7_with_flags(_version: u32, _flags: u32, _system: &[u8], _more: u32, _graphics: &[u8]) -> Vec<u8> {
    unreachable!()
}

pub fn u16_le(_b: &[u8], _at: usize) -> u16 {
    unreachable!()
}

pub fn u32_le(_b: &[u8], _at: usize) -> u32 {
    unreachable!()
}

pub fn u64_le(_b: &[u8], _at: usize) -> u64 {
    unreachable!()
}
