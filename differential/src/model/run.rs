//! Runs: the elements of an array, the pairs of a map.
use super::buffer::Buffer;
use super::coerce::Fit;
use super::nest::Reached;
use super::schema::{Member, Structure};
use super::sheet::{NULL, STRUCT};
use super::trace::{From, Note};
use super::write::{scalar_case, At, Fields, Writer, ARRAYINFO};
use crate::branch::{Case, Place, Way};
use std::ops::Range;

/// The block and the bytes of one element of a scalar type.
fn scalar_run(ty: u8) -> (u32, usize) {
    match ty {
        0x00..=0x02 => (2, 1),
        0x03 | 0x04 | 0x1E => (4, 2),
        0x05 => (5, 4),
        0x06 => (6, 4),
        0x20 => (6, 8),
        0x07 => (7, 4),
        0x08 => (1, 8),
        _ => (1, 16),
    }
}

/// The block and the bytes of a run; none where it is dropped.
pub type Run = Option<(u32, Buffer)>;

impl<'a> Writer<'a> {
    /// A run's cost, charged before its first byte.
    fn begin(&mut self, at: At, case: Case, stride: usize, n: usize) -> Result<Buffer, u32> {
        self.state.pay(16 + stride as u64 * n as u64, at.from())?;
        if n == 0 {
            self.state.hits.hit(case, Way::Empty);
        }
        Ok(Buffer::default())
    }

    /// What an element is written for.
    fn element(&mut self, at: At, row: usize) -> Result<From, u32> {
        self.state.step(self.sheet.cost(Some(row)))?;
        Ok(at.from().at(row))
    }

    fn stop(&mut self, at: At, case: Case, way: Way, kind: u32, detail: u32) -> Result<Run, u32> {
        self.state.hits.hit(case, way);
        self.remark(at, kind, detail)?;
        Ok(None)
    }

    /// The run vanishes for one bad element.
    fn drop_run(&mut self, at: At, case: Case, row: usize) -> Result<Run, u32> {
        self.state.hits.hit(case, Way::Dropped);
        self.state.trace.note(Note::Vanished(row), at.from());
        Ok(None)
    }

    pub fn element_run(&mut self, at: At<'a>, element: &'a Member, items: Range<usize>) -> Result<Run, u32> {
        if scalar_case(element.ty).is_some() {
            return self.scalars(at, element.ty, items);
        }
        match element.ty {
            0x0C if element.subtype == 3 => self.pointers(at, element.reference, items),
            0x0C => self.structures(at, element.reference, items),
            0x0B => self.strings(at, element, items),
            0x0E => self.enums(at, element.reference, items),
            other => self.stop(at, Case::ElOther, Way::Remark, 12, other as u32),
        }
    }

    fn scalars(&mut self, at: At, ty: u8, items: Range<usize>) -> Result<Run, u32> {
        let (_, case) = scalar_case(ty).unwrap();
        let (block, stride) = scalar_run(ty);
        let mut run = self.begin(at, case, stride, items.len())?;
        for r in items {
            let from = self.element(at, r)?;
            self.step_parts(ty, Some(r))?;
            let fit = self.scalar_bytes(ty, &self.sheet.rows[r]);
            let culprit = self.from_float(&fit, from, |r| matches!(self.sheet.float_of(r), Fit::FloatText));
            let Some(b) = self.settled(case, fit, culprit)? else { return self.drop_run(at, case, r) };
            self.note_scalar(ty, from);
            run.bytes.extend_from_slice(&b[..stride]);
        }
        self.state.hits.hit(case, Way::Written);
        Ok(Some((block, run)))
    }

    /// Structures by pointer: what is no Struct is a zero slot.
    fn pointers(&mut self, at: At<'a>, reference: u32, items: Range<usize>) -> Result<Run, u32> {
        let case = Case::ElPointer;
        let mut run = self.begin(at, case, 8, items.len())?;
        for r in items {
            let from = self.element(at, r)?;
            let kind = self.sheet.rows[r].kind;
            self.state.hits.value(Place::Struct, kind);
            let mut slot = Buffer::zeros(8);
            let mut laid = None;
            if kind == STRUCT {
                laid = self.pointed(at, case, reference, from, Reached::PointerRun)?;
            } else {
                self.state.hits.hit(case, Way::NotStruct);
                if kind != NULL {
                    self.state.trace.note(Note::NoStructure, from);
                }
            }
            self.put(&mut slot, 0, laid, from);
            run.append(&slot);
        }
        Ok(Some((12, run)))
    }

    /// Structures in the run: what is neither Struct nor Null gives remark 9 and a default one.
    fn structures(&mut self, at: At<'a>, reference: u32, items: Range<usize>) -> Result<Run, u32> {
        let case = Case::ElStruct;
        let Some(def) = self.defined(reference) else {
            if !items.is_empty() {
                self.state.trace.lacks(reference, at.from());
            }
            return self.stop(at, case, Way::NoDef, 8, reference);
        };
        let mut run = self.begin(at, case, def.size as usize, items.len())?;
        let reached = if at.member.subtype == 0 { Reached::Run } else { Reached::Embedded };
        for r in items {
            let from = self.element(at, r)?;
            let kind = self.sheet.rows[r].kind;
            self.state.hits.value(Place::Struct, kind);
            match kind {
                STRUCT => self.state.hits.hit(case, Way::Written),
                NULL => self.state.hits.hit(case, Way::Null),
                _ => {
                    self.state.hits.hit(case, Way::NotStruct);
                    self.remark_at(at, Some(r), 9, 0)?;
                }
            }
            let made = self.structure(def, &self.fields_of(Some(r)), from, reached)?;
            run.append(&made);
        }
        Ok(Some((def.name, run)))
    }

    fn strings(&mut self, at: At<'a>, element: &Member, items: Range<usize>) -> Result<Run, u32> {
        match element.subtype {
            0 => self.fixed(at, (element.reference >> 16) as usize, items),
            1 => self.texts(at, Case::ElString1, element.subtype, items),
            2 => self.texts(at, Case::ElString2, element.subtype, items),
            3 => self.texts(at, Case::ElString3, element.subtype, items),
            7 => self.hashes(at, Case::ElString7, items),
            8 => self.hashes(at, Case::ElString8, items),
            other => self.stop(at, Case::ElStringOther, Way::Remark, 11, other as u32),
        }
    }

    /// Texts by pointer: what is no text is an empty slot.
    fn texts(&mut self, at: At, case: Case, subtype: u8, items: Range<usize>) -> Result<Run, u32> {
        let (block, stride) = if subtype == 3 { (200, 16) } else { (12, 8) };
        let mut run = self.begin(at, case, stride, items.len())?;
        let sheet = self.sheet;
        for r in items {
            let from = self.element(at, r)?;
            let row = &sheet.rows[r];
            self.state.hits.value(Place::Text, row.kind);
            let text = sheet.str_of(row);
            if text.is_none() {
                self.state.trace.note(Note::NoText, from);
            }
            let t = text.unwrap_or(&[]);
            self.state.hits.hit(case, if t.is_empty() { Way::Default } else { Way::Written });
            let mut slot = Buffer::zeros(stride);
            self.text_slot(subtype, t, from, 0, &mut slot)?;
            run.append(&slot);
        }
        Ok(Some((block, run)))
    }

    fn fixed(&mut self, at: At<'a>, stride: usize, items: Range<usize>) -> Result<Run, u32> {
        let case = Case::ElString0;
        if stride == 0 {
            return self.stop(at, case, Way::Remark, 10, 0);
        }
        let mut run = self.begin(at, case, stride, items.len())?;
        let sheet = self.sheet;
        for r in items {
            let from = self.element(at, r)?;
            let row = &sheet.rows[r];
            self.state.hits.value(Place::Text, row.kind);
            let Some(t) = sheet.str_of(row) else { return self.drop_run(at, case, r) };
            let end = run.len() + stride;
            run.bytes.extend_from_slice(self.cut(case, t, stride, from));
            run.bytes.resize(end, 0);
        }
        self.state.hits.hit(case, Way::Written);
        Ok(Some((1, run)))
    }

    fn hashes(&mut self, at: At, case: Case, items: Range<usize>) -> Result<Run, u32> {
        let mut run = self.begin(at, case, 4, items.len())?;
        for r in items {
            let from = self.element(at, r)?;
            let row = &self.sheet.rows[r];
            self.state.hits.value(Place::Hash, row.kind);
            let Some(h) = self.sheet.hash_of(row) else { return self.drop_run(at, case, r) };
            self.note_hash(from);
            run.bytes.extend_from_slice(&h.to_be_bytes());
        }
        self.state.hits.hit(case, Way::Written);
        Ok(Some((6, run)))
    }

    /// An enum's run has begun, so it is used.
    fn enums(&mut self, at: At, name: u32, items: Range<usize>) -> Result<Run, u32> {
        let case = Case::ElEnum;
        let mut run = self.begin(at, case, 4, items.len())?;
        let known = self.use_enum(name, at.value);
        self.state.hits.hit(case, if known { Way::Known } else { Way::Unknown });
        let entries = self.entries(name);
        for r in items {
            let from = self.element(at, r)?;
            self.step_entries(entries, from.row)?;
            let row = &self.sheet.rows[r];
            self.state.hits.value(Place::Enum, row.kind);
            self.count_enum(row, entries);
            let fit = self.sheet.enum_value(row, entries);
            let Some(x) = self.settled(case, fit, from)? else { return self.drop_run(at, case, r) };
            self.note_named(4, from);
            run.bytes.extend_from_slice(&x.to_be_bytes());
        }
        self.state.hits.hit(case, Way::Written);
        Ok(Some((5, run)))
    }

    /// Key and value stand under the names of the definition's first two members.
    pub fn pair_run(&mut self, at: At<'a>, pair: &'a Structure, rows: Range<usize>) -> Result<Buffer, u32> {
        let names: Vec<u32> = pair.members.iter().map(|m| m.name).filter(|n| *n != ARRAYINFO).take(2).collect();
        if names.len() < 2 {
            self.state.hits.hit(Case::Map, Way::OneMember);
        } else if names[0] == names[1] {
            self.state.hits.hit(Case::Map, Way::SameName);
        }
        let mut run = self.begin(at, Case::Map, pair.size as usize, rows.len() / 2)?;
        for key in rows.step_by(2) {
            let from = self.element(at, key)?;
            let fields = Fields::Pair(names.iter().copied().zip([key, key + 1]).collect());
            let made = self.structure(pair, &fields, from, Reached::Pair)?;
            run.append(&made);
            self.state.trace.note_pair(key..key + 2, pair.name);
        }
        Ok(run)
    }
}
