//! `read --json`: one object, numbers as numbers, section names as text.
use crate::definitions::{entries, members};
use crate::json::List;
use crate::library;

use crate::sections::{self, blocks, walk, Section};
use crate::view::{Shown, View};
use serde::ser::SerializeStruct;
use serde::{Serialize, Serializer};

/// A word beside its hash, where it is known.
type Word = Option<String>;

#[derive(Serialize)]
struct Part {
    #[serde(skip_serializing_if = "Option::is_none")]
    name: Option<String>,
    at: usize,
    length: usize,
}

#[derive(Serialize)]
struct Block {
    number: usize,
    name: u32,
    #[serde(skip_serializing_if = "Option::is_none")]
    word: Word,
    place: u32,
    length: u32,
}

#[derive(Serialize)]
struct Member {
    name: u32,
    #[serde(skip_serializing_if = "Option::is_none")]
    word: Word,
    r#type: u32,
    subtype: u32,
    offset: u32,
    reference: u32,
}

#[derive(Serialize)]
struct Entry {
    name: u32,
    #[serde(skip_serializing_if = "Option::is_none")]
    word: Word,
    value: i32,
}

/// A structure or an enum.
struct Definition<'a> {
    view: &'a View<'a>,
    shown: Shown,
}

impl Serialize for Definition<'_> {
    fn serialize<S: Serializer>(&self, serializer: S) -> Result<S::Ok, S::Error> {
        let (d, file, names) = (&self.shown.d, self.view.file, self.view.names);
        let rows = self.shown.rows as usize;
        let mut object = serializer.serialize_struct("definition", 7)?;
        object.serialize_field("name", &d.name)?;
        if let Some(word) = names.word(d.name) {
            object.serialize_field("word", &word)?;
        }
        object.serialize_field("at", &d.at)?;
        if !d.is_enum {
            object.serialize_field("unknown", &d.unknown)?;
            object.serialize_field("size", &d.size)?;
        }
        let member = |m: library::Member| Member {
            name: m.name,
            word: names.word(m.name),
            r#type: m.kind,
            subtype: m.subtype,
            offset: m.offset,
            reference: m.reference,
        };
        let entry = |e: library::Entry| Entry { name: e.name, word: names.word(e.name), value: e.value as i32 };
        match self.shown.like {
            Some(name) => object.serialize_field("as", &name)?,
            None if d.is_enum => object.serialize_field("entries", &List(|| entries(file, d).take(rows).map(entry)))?,
            None => object.serialize_field("members", &List(|| members(file, d).take(rows).map(member)))?,
        }
        if self.shown.left_out > 0 {
            object.serialize_field("left_out", &self.shown.left_out)?;
        }
        object.end()
    }
}

/// The whole file.
pub struct Json<'a>(pub &'a View<'a>);

impl Serialize for Json<'_> {
    fn serialize<S: Serializer>(&self, serializer: S) -> Result<S::Ok, S::Error> {
        let (view, file) = (self.0, self.0.file);
        let pack = view.reading.as_ref();
        let part = |s: Section| Part { name: Some(s.shown()), at: s.at, length: s.length };
        let block = |(number, b): (usize, sections::Block)| Block {
            number,
            name: b.name,
            word: view.names.word(b.name),
            place: b.place,
            length: b.length,
        };
        // The block lists of a schema file belong to no data.
        let most = pack.map_or(0, |r| r.blocks);
        let definition = |shown: Shown| Definition { view, shown };
        let mut object = serializer.serialize_struct("file", 9)?;
        object.serialize_field("file", &view.name)?;
        object.serialize_field("length", &file.len())?;
        object.serialize_field("root", &pack.map(|r| r.root))?;
        object.serialize_field("root_start", &view.root_start())?;
        object.serialize_field("data", &pack.map(|r| Part { name: None, at: r.data_at, length: r.data_length }))?;
        object.serialize_field("sections", &List(|| walk(file).map_while(Result::ok).map(part)))?;
        object.serialize_field("blocks", &List(|| (1..).zip(blocks(file)).take(most).map(block)))?;
        object.serialize_field("structures", &List(|| view.definitions(Some(false)).map(definition)))?;
        object.serialize_field("enums", &List(|| view.definitions(Some(true)).map(definition)))?;
        object.end()
    }
}
