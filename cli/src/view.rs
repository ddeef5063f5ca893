//! What `read` shows of a file: a pack, or a schema file, each definition once.
use crate::library::{self, Reading};
use crate::names::Names;
use crate::places;
use crate::sections::{blocks, definitions, has_definitions, Listed};
use crate::words::refused;
use std::collections::hash_map::Entry;
use std::collections::{HashMap, HashSet};

pub struct View<'a> {
    pub name: String,
    pub file: &'a [u8],
    /// None for a schema file.
    pub reading: Option<Reading>,
    pub names: &'a Names,
}

/// A pack that the reader accepts, or its refusal as a message.
pub fn accepted(file: &[u8], name: &str) -> Result<Reading, String> {
    let reading = library::read(file);
    if reading.code == 0 {
        return Ok(reading);
    }
    let place = places::of_read(reading.code, file);
    Err(format!("{name}: {}", refused(reading.code, place.as_deref())))
}

/// A schema file that packing accepts, or its refusal as a message.
fn accepted_schema(file: &[u8], name: &str) -> Result<(), String> {
    match library::check_schema(file)? {
        0 => Ok(()),
        code => {
            let place = places::of_schema(code, file);
            Err(format!("{name}: as a schema file: {}", refused(code, place.as_deref())))
        }
    }
}

impl<'a> View<'a> {
    pub fn of(file: &'a [u8], name: String, names: &'a Names) -> Result<View<'a>, String> {
        let is_schema = !file.starts_with(b"PSIN") && has_definitions(file);
        let reading = if is_schema {
            accepted_schema(file, &name)?;
            None
        } else {
            Some(accepted(file, &name)?)
        };
        Ok(View { name, file, reading, names })
    }

    /// Where the root starts in its block, as far as the size of its structure tells it: the root is the block's end. None
    /// where the block runs past the data. Of several structures of a name the last counts, as in packing.
    pub fn root_start(&self) -> Option<u32> {
        let reading = self.reading.as_ref()?;
        let block = blocks(self.file).nth((reading.root as usize).checked_sub(1)?)?;
        if block.place as u64 + block.length as u64 > reading.data_length as u64 {
            return None;
        }
        let root = definitions(self.file).filter(|d| !d.is_enum && d.name == block.name).last()?;
        block.length.checked_sub(root.size)
    }

    /// The definitions of a kind, or of both kinds, in index order, as they are shown.
    pub fn definitions(&self, enums: Option<bool>) -> impl Iterator<Item = Shown> + 'a {
        let mut listing = Listing { names: Default::default(), places: HashMap::new(), left: self.file.len() };
        let wanted = move |d: &Listed| enums.map_or(true, |e| d.is_enum == e);
        definitions(self.file).filter(wanted).map(move |d| listing.enter(d))
    }
}

/// A definition as it is shown.
pub struct Shown {
    pub d: Listed,
    /// An earlier one has its name.
    pub repeated: bool,
    /// The name of an earlier one at the same place.
    pub like: Option<u32>,
    /// How many of its members or entries are shown, and how many are left out.
    pub rows: u32,
    pub left_out: u32,
}

/// What was shown so far. Definitions at one place are shown once, and no more members and entries than the file has
/// bytes for: a file shows more only where definitions lie over one another.
struct Listing {
    /// The names of structures, of enums.
    names: [HashSet<u32>; 2],
    /// The name that was shown for a place; no file that is read has a place above 32 bits.
    places: HashMap<u32, u32>,
    left: usize,
}

impl Listing {
    fn enter(&mut self, d: Listed) -> Shown {
        let repeated = !self.names[usize::from(d.is_enum)].insert(d.name);
        match self.places.entry(d.at as u32) {
            Entry::Occupied(name) => return Shown { d, repeated, like: Some(*name.get()), rows: 0, left_out: 0 },
            Entry::Vacant(place) => place.insert(d.name),
        };
        let width = if d.is_enum { 8 } else { 12 };
        let rows = d.count.min((self.left / width) as u32);
        self.left -= rows as usize * width;
        Shown { d, repeated, like: None, rows, left_out: d.count - rows }
    }
}
