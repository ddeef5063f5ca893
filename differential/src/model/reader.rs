//! Reading a file: refusals 15 to 18 and 4, 5, 6.
use super::schema::{next_section, Definitions, PMAP, PSCH, PSIN};
use crate::bytes::{u16_at, u32_at};

#[derive(Clone, Copy, Debug, PartialEq)]
pub struct FileBlock {
    pub name: u32,
    pub place: u32,
    pub length: u32,
}

#[derive(Debug, Clone)]
pub struct Reading {
    pub root: u32,
    /// Where the data section starts, and its length.
    pub data: (usize, usize),
    pub blocks: Vec<FileBlock>,
    /// Of the definitions of a name the first counts.
    pub definitions: Definitions,
}

/// The rows of a PMAP section, or 16.
fn blocks_of(section: &[u8], blocks: &mut Vec<FileBlock>) -> Result<(), u32> {
    if section.len() < 16 {
        return Err(16);
    }
    let (mut count, mut rows) = (u16_at(section, 12), 16);
    if count == 0 || count >= 0x8000 {
        if section.len() < 24 {
            return Err(16);
        }
        (count, rows) = (u16_at(section, 16), 24);
    }
    if section.len() < rows + 16 * count as usize {
        return Err(16);
    }
    for row in section[rows..].chunks(16).take(count as usize) {
        blocks.push(FileBlock { name: u32_at(row, 0), place: u32_at(row, 4), length: u32_at(row, 12) });
    }
    Ok(())
}

pub fn read(file: &[u8]) -> Result<Reading, u32> {
    if file.len() < 4 || u32_at(file, 0) != PSIN {
        return Err(15);
    }
    let (mut root, mut data) = (None, None);
    let mut blocks = Vec::new();
    let mut definitions = Definitions::default();
    let mut at = 0;
    while let Some((name, section)) = next_section(file, at)? {
        match name {
            PSIN => data = Some((at, section.len())),
            PMAP => {
                blocks_of(section, &mut blocks)?;
                root = Some(u32_at(section, 8));
            }
            PSCH => definitions.add(section)?,
            _ => {}
        }
        at += section.len();
    }
    let data = data.ok_or(17u32)?;
    let root = root.ok_or(18u32)?;
    Ok(Reading { root, data, blocks, definitions })
}
