//! Members that lead to further structures: structures, arrays, maps.
use super::buffer::{Buffer, Laid};
use super::nest::Reached;
use super::schema::Member;
use super::sheet::{ARRAY, MAP, NULL, STR, STRUCT};
use super::text;
use super::trace::{From, Note};
use super::write::{At, Writer};
use crate::branch::{Case, Place, Way};
use std::ops::Range;

impl<'a> Writer<'a> {
    pub(super) fn structure_member(&mut self, at: At<'a>, buf: &mut Buffer) -> Result<(), u32> {
        let (m, off) = (at.member, at.member.offset as usize);
        let case = if m.subtype == 0 { Case::Inline } else { Case::Pointed };
        let row = self.seen(at, case, Place::Struct);
        let empty_text = row.kind == STR && row.b == 0;
        if !(row.kind == STRUCT || row.kind == NULL || empty_text) {
            return self.wrong(at, case);
        }
        if at.value.is_some() && row.kind != STRUCT {
            self.state.hits.hit(case, if empty_text { Way::Empty } else { Way::Null });
        }
        if m.subtype == 0 {
            let Some(inner) = self.defined(m.reference) else {
                self.state.hits.hit(case, Way::NoDef);
                self.state.trace.lacks(m.reference, at.from());
                return self.remark(at, 4, m.reference);
            };
            if !self.fits(at, case, inner.size as usize)? {
                return Ok(());
            }
            let made = self.structure(inner, &self.fields_of(at.value), at.from(), Reached::Inline(at.depth))?;
            self.state.hits.hit(case, Way::Written);
            buf.place(off, &made);
            return Ok(());
        }
        if !self.fits(at, case, 8)? {
            return Ok(());
        }
        let laid = if row.kind == STRUCT { self.pointed(at, case, m.reference, at.from(), Reached::Pointer)? } else { None };
        self.put(buf, off, laid, at.from());
        Ok(())
    }

    /// A pointer, or nothing.
    pub fn put(&mut self, buf: &mut Buffer, off: usize, laid: Option<Laid>, from: From) {
        match laid {
            Some(laid) => buf.put_pointer(off, laid),
            None => buf.put_nothing(off, self.state.nothing(from), false),
        }
    }

    /// A structure by pointer: the row's own type where the schema has it, else the reference; or remark 4.
    pub fn pointed(&mut self, at: At<'a>, case: Case, reference: u32, from: From, reached: Reached) -> Result<Option<Laid>, u32> {
        let own_type = self.row(from.row).a;
        let own = self.defined(own_type).is_some();
        let name = if own { own_type } else { reference };
        let found = self.defined(name);
        if !own && (own_type != 0 || found.is_none()) {
            self.state.trace.lacks(if own_type != 0 { own_type } else { name }, from);
            self.state.trace.foreign.extend(from.row);
        }
        let Some(def) = found else {
            self.state.hits.hit(case, Way::NoDef);
            self.remark_at(at, from.row, 4, name)?;
            return Ok(None);
        };
        self.state.hits.hit(case, if own { Way::OwnType } else { Way::ByReference });
        let made = self.structure(def, &self.fields_of(from.row), from, reached)?;
        self.state.lay(false, def.name, made, from).map(Some)
    }

    /// The element's descriptor: 16-bit index, else 12-bit.
    fn array_info(&mut self, at: At<'a>) -> Option<&'a Member> {
        let members = &at.def.members;
        let (wide, narrow) = ((at.member.reference & 0xFFFF) as usize, (at.member.reference & 0xFFF) as usize);
        if wide < members.len() {
            self.state.hits.hit(Case::Array, Way::Index16);
            return Some(&members[wide]);
        }
        if narrow < members.len() {
            self.state.hits.hit(Case::Array, Way::Index12);
        }
        members.get(narrow)
    }

    pub(super) fn array(&mut self, at: At<'a>, buf: &mut Buffer) -> Result<(), u32> {
        let (m, off) = (at.member, at.member.offset as usize);
        let Some(element) = self.array_info(at) else {
            self.state.hits.hit(Case::Array, Way::Remark);
            return self.remark(at, 5, 0);
        };
        let row = self.seen(at, Case::Array, Place::Array);
        let blank = row.kind == STR && text::trim(self.sheet.text(&row)).is_empty();
        if !(row.kind == ARRAY || row.kind == NULL || blank) {
            return self.wrong(at, Case::Array);
        }
        if at.value.is_some() && row.kind != ARRAY {
            self.state.hits.hit(Case::Array, if blank { Way::Blank } else { Way::Null });
        }
        let items = self.sheet.children(&row);
        let by_pointer = m.subtype == 0 || (m.subtype == 4 && element.subtype == 3);
        if !by_pointer {
            return self.embedded(at, element, items, buf);
        }
        let case = Case::ArrayPointed;
        if !self.fits(at, case, 16)? {
            return Ok(());
        }
        self.state.hits.hit(case, if m.subtype == 0 { Way::Sub0 } else { Way::Sub4 });
        let n = items.len();
        if n == 0 {
            self.state.hits.hit(case, Way::Empty);
            buf.put_nothing(off, self.state.nothing(at.from()), true);
            return Ok(());
        }
        let Some((block, run)) = self.element_run(at, element, items)? else {
            self.state.hits.hit(case, Way::Dropped);
            buf.put_nothing(off, self.state.nothing(at.from()), true);
            return Ok(());
        };
        self.state.hits.hit(case, Way::Written);
        let laid = self.state.lay(false, block, run, at.from())?;
        buf.put_counted(off, laid, n);
        Ok(())
    }

    /// The run first, then whether it fits; items past the count are dropped before.
    fn embedded(&mut self, at: At<'a>, element: &'a Member, items: Range<usize>, buf: &mut Buffer) -> Result<(), u32> {
        let case = Case::ArrayEmbedded;
        let off = at.member.offset as usize;
        let kept = items.len().min((at.member.reference >> 16) as usize);
        if kept < items.len() {
            self.state.hits.hit(case, Way::Cut);
            self.state.trace.note(Note::ItemsCut, at.from());
        }
        let Some((_, run)) = self.element_run(at, element, items.start..items.start + kept)? else {
            self.state.hits.hit(case, Way::Dropped);
            return Ok(());
        };
        if !self.fits(at, case, run.len())? {
            return Ok(());
        }
        self.state.hits.hit(case, if run.is_empty() { Way::Empty } else { Way::Written });
        buf.place(off, &run);
        Ok(())
    }

    pub(super) fn map(&mut self, at: At<'a>, buf: &mut Buffer) -> Result<(), u32> {
        let (m, off) = (at.member, at.member.offset as usize);
        if m.subtype != 1 {
            self.state.hits.hit(Case::MapOther, Way::Remark);
            return self.remark(at, 6, m.subtype as u32);
        }
        if !self.fits(at, Case::Map, 24)? {
            return Ok(());
        }
        let row = self.seen(at, Case::Map, Place::Map);
        if row.kind != MAP && row.kind != NULL {
            return self.wrong(at, Case::Map);
        }
        if at.value.is_some() && row.kind == NULL {
            self.state.hits.hit(Case::Map, Way::Null);
        }
        buf.put(off, &0x0100_0000u32.to_be_bytes());
        let pairs = self.sheet.children(&row);
        if pairs.is_empty() {
            self.state.hits.hit(Case::Map, Way::Empty);
            buf.put_nothing(off + 8, self.state.nothing(at.from()), true);
            return Ok(());
        }
        let name = self.reference_at(at, Case::Map, (m.reference & 0xFFFF) as usize);
        let Some(pair) = self.defined(name) else {
            self.state.hits.hit(Case::Map, Way::NoDef);
            self.state.trace.lacks(name, at.from());
            buf.put_nothing(off + 8, self.state.nothing(at.from()), true);
            return self.remark(at, 7, name);
        };
        let n = pairs.len() / 2;
        let run = self.pair_run(at, pair, pairs)?;
        self.state.hits.hit(Case::Map, Way::Written);
        let laid = self.state.lay(false, name, run, at.from())?;
        buf.put_counted(off + 8, laid, n);
        Ok(())
    }
}
