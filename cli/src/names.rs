//! Names: the words of a file that are shown beside their hashes.
use crate::{files, Stop};
use sandvurek_model::model::text::joaat;
use std::collections::HashMap;
use std::ffi::OsStr;
use std::ops::Range;

/// A longer line is no name.
const LONGEST: usize = 255;
/// Some editors put this in front of a file.
const MARK: &[u8] = "\u{FEFF}".as_bytes();

/// The words of a file by their hashes; of two with one hash the first.
#[derive(Default)]
pub struct Names {
    text: Vec<u8>,
    words: HashMap<u32, Range<u32>>,
}

impl Names {
    /// The words of a file, one a line; none without a file.
    pub fn of(path: Option<&OsStr>) -> Result<Names, Stop> {
        let Some(path) = path else { return Ok(Names::default()) };
        let mut names = Names { text: files::read_file(path)?, words: HashMap::new() };
        let mut at = if names.text.starts_with(MARK) { MARK.len() } else { 0 };
        for (row, line) in names.text[at..].split(|b| *b == b'\n').enumerate() {
            let word = line.trim_ascii();
            if word.len() > LONGEST {
                let name = files::shown(path);
                return Err(Stop::failed(format!("{name}: row {}: longer than {LONGEST} bytes, no name is", row + 1)));
            }
            if !word.is_empty() {
                let start = (at + line.len() - line.trim_ascii_start().len()) as u32;
                names.words.entry(joaat(word)).or_insert(start..start + word.len() as u32);
            }
            at += line.len() + 1;
        }
        Ok(names)
    }

    /// The word of a hash.
    pub fn word(&self, hash: u32) -> Option<String> {
        let Range { start, end } = self.words.get(&hash)?.clone();
        let word = String::from_utf8_lossy(&self.text[start as usize..end as usize]);
        Some(word.replace(char::is_control, "?"))
    }

    /// "0x40", with its word where that is known: "0x40 (Lamp)".
    pub fn shown(&self, hash: u32) -> String {
        match self.word(hash) {
            Some(word) => format!("0x{hash:X} ({word})"),
            None => format!("0x{hash:X}"),
        }
    }

    /// "structure 0x40, member 0x41 (Lamp.power)".
    pub fn member(&self, structure: u32, member: u32) -> String {
        match (self.word(structure), self.word(member)) {
            (Some(s), Some(m)) => format!("structure 0x{structure:X}, member 0x{member:X} ({s}.{m})"),
            _ => format!("structure {}, member {}", self.shown(structure), self.shown(member)),
        }
    }
}
