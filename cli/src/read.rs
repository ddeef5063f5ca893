//! `read`: a file's sections, root, blocks and definitions.
use crate::arguments::Read;
use crate::definitions::{entries, members};
use crate::names::Names;
use crate::sections::{blocks, walk};
use crate::view::{Shown, View};
use crate::words::{commas, count, count_as, type_name};
use crate::{files, json, output, read_json, Stop, DONE};
use std::io::{self, Write};

fn write_sections(v: &View, out: &mut impl Write) -> io::Result<()> {
    writeln!(out, "\nsections")?;
    let mut end = 0;
    for s in walk(v.file).map_while(Result::ok) {
        writeln!(out, "  {:<4}  at {}, {}", s.shown(), s.at, count(s.length as u64, "byte"))?;
        end = s.at + s.length;
    }
    if end < v.file.len() {
        writeln!(out, "  {} behind the last section", count((v.file.len() - end) as u64, "byte"))?;
    }
    Ok(())
}

fn write_blocks(v: &View, out: &mut impl Write) -> io::Result<()> {
    writeln!(out, "\nblocks")?;
    for (k, b) in (1..).zip(blocks(v.file)) {
        let name = v.names.shown(b.name);
        writeln!(out, "  {k}  name {name}, place {}, {}", b.place, count(b.length as u64, "byte"))?;
    }
    Ok(())
}

/// A definition's line, and those of its members or entries.
fn write_definition(v: &View, s: &Shown, out: &mut impl Write) -> io::Result<()> {
    let (d, names) = (&s.d, v.names);
    let kind = if d.is_enum { "enum" } else { "structure" };
    let note = if s.repeated { " (an earlier one has this name)" } else { "" };
    write!(out, "  {kind} {}: ", names.shown(d.name))?;
    if let Some(name) = s.like {
        return writeln!(out, "as {kind} {}{note}", names.shown(name));
    }
    let rows = |n: u32| match d.is_enum {
        true => count_as(n as u64, "entry", "entries"),
        false => count(n as u64, "member"),
    };
    if !d.is_enum {
        write!(out, "{}, unknown byte {}, ", count(d.size as u64, "byte"), d.unknown)?;
    }
    writeln!(out, "{}{note}", rows(d.count))?;
    match d.is_enum {
        true => write_entries(v.file, s, names, out)?,
        false => write_members(v.file, s, names, out)?,
    }
    match s.left_out {
        0 => Ok(()),
        n => writeln!(out, "    {} left out: definitions lie over one another", rows(n)),
    }
}

fn write_entries(file: &[u8], s: &Shown, names: &Names, out: &mut impl Write) -> io::Result<()> {
    for e in entries(file, &s.d).take(s.rows as usize) {
        writeln!(out, "    {} = {}", names.shown(e.name), e.value as i32)?;
    }
    Ok(())
}

fn write_members(file: &[u8], s: &Shown, names: &Names, out: &mut impl Write) -> io::Result<()> {
    for m in members(file, &s.d).take(s.rows as usize) {
        let (name, kind, reference) = (names.shown(m.name), type_name(m.kind), names.shown(m.reference));
        let (subtype, offset) = (m.subtype, m.offset);
        writeln!(
            out,
            "    {name}: type 0x{:02X} {kind}, subtype {subtype}, offset {offset}, reference {reference}",
            m.kind
        )?;
    }
    Ok(())
}

fn write_text(v: &View, out: &mut impl Write) -> io::Result<()> {
    writeln!(out, "{}: {}", v.name, count(v.file.len() as u64, "byte"))?;
    match &v.reading {
        Some(r) => {
            let place = match v.root_start() {
                Some(0) => ", at its start".into(),
                Some(start) => format!(", at 0x{start:X} of it"),
                None => String::new(),
            };
            writeln!(out, "root: block {} of {}{place}", r.root, r.blocks)?;
            writeln!(out, "data: {} at byte {}", count(r.data_length as u64, "byte"), commas(r.data_at as u64))?;
        }
        None => writeln!(out, "schema file: no root, no data, no blocks")?,
    }
    write_sections(v, out)?;
    if v.reading.is_some() {
        write_blocks(v, out)?;
    }
    writeln!(out, "\ndefinitions")?;
    for s in v.definitions(None) {
        write_definition(v, &s, out)?;
    }
    Ok(())
}

pub fn run(o: &Read) -> Result<u8, Stop> {
    let mut out = output::open()?;
    let names = Names::of(o.names.as_deref())?;
    let file = files::read_file(&o.file)?;
    let view = View::of(&file, files::shown(&o.file), &names).map_err(Stop::failed)?;
    let result = match o.json {
        true => json::write(&read_json::Json(&view), &mut out),
        false => write_text(&view, &mut out),
    };
    output::written(result.and_then(|()| out.flush()))?;
    Ok(DONE)
}
