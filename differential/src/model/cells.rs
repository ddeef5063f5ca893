//! Members that lead to no other structure: numbers, vectors, texts, enums, flags.
use super::buffer::Buffer;
use super::coerce::Fit;
use super::sheet::{Row, ARRAY, F32, HASH, I64, STR, U64, VEC2, VEC4};
use super::text::{decimal, parts, trim};
use super::trace::{From, Note};
use super::write::{named_size, scalar_case, scalar_size, At, Writer};
use crate::branch::{Case, Place, Way};
use crate::bytes::put_u32;

/// Whether a number comes back from its low bytes, with its sign or without.
fn holds(x: u64, bytes: usize) -> bool {
    bytes >= 8 || x >> (8 * bytes) == 0 || (x as i64) >> (8 * bytes - 1) == -1
}

fn has_fraction(bits: u32) -> bool {
    let f = f32::from_bits(bits);
    f.fract() != 0.0 || !f.is_finite()
}

impl<'a> Writer<'a> {
    /// The bytes of a value as a scalar type, first in 16.
    pub fn scalar_bytes(&mut self, ty: u8, row: &Row) -> Fit<[u8; 16]> {
        let floats = |f: &[u32]| {
            let mut b = [0; 16];
            f.iter().enumerate().for_each(|(k, x)| put_u32(&mut b, 4 * k, *x));
            b
        };
        match ty {
            0x07 => {
                self.state.hits.value(Place::Float, row.kind);
                self.count_float(row);
                self.sheet.float_of(row).map(|x| floats(&[x]))
            }
            0x08 | 0x09 | 0x0A | 0x14 | 0x15 => {
                self.state.hits.value(Place::Vector, row.kind);
                let n = scalar_size(ty) / 4;
                self.count_vector(row, n);
                self.sheet.vec_of(row, n).map(|v| floats(&v[..n]))
            }
            _ => {
                self.state.hits.value(Place::Int, row.kind);
                self.count_whole(Case::TextInt, row);
                let n = scalar_size(ty);
                self.sheet.int_of(row).map(|x| {
                    let mut b = [0; 16];
                    b[..n].copy_from_slice(&x.to_be_bytes()[8 - n..]);
                    b
                })
            }
        }
    }

    /// A vector's text is read to its end, part by part.
    pub fn step_parts(&mut self, ty: u8, value: Option<usize>) -> Result<(), u32> {
        match ty {
            0x08 | 0x09 | 0x0A | 0x14 | 0x15 if self.row(value).kind == STR => self.state.step(self.sheet.most_names(value) / 4),
            _ => Ok(()),
        }
    }

    /// Notes what a scalar type does not hold of a value that it takes.
    pub fn note_scalar(&mut self, ty: u8, from: From) {
        let row = self.row(from.row);
        match ty {
            0x07 => {}
            0x08 | 0x09 | 0x0A | 0x14 | 0x15 => {
                let given = match row.kind {
                    ARRAY => self.sheet.children(&row).len(),
                    VEC2..=VEC4 => (row.kind - VEC2) as usize + 2,
                    STR => parts(self.sheet.text(&row)).count(),
                    _ => 0,
                };
                if given > scalar_size(ty) / 4 {
                    self.state.trace.note(Note::Extra, from);
                }
            }
            _ => self.note_number(scalar_size(ty), from),
        }
    }

    /// Notes a number that so many bytes do not hold, or a fraction.
    pub fn note_number(&mut self, bytes: usize, from: From) {
        let row = self.row(from.row);
        let fraction = match row.kind {
            F32 => has_fraction(row.a),
            STR => decimal(trim(self.sheet.text(&row))).is_some_and(|d| d.has_fraction()),
            _ => false,
        };
        if fraction {
            self.state.trace.note(Note::Fraction, from);
        }
        if matches!(self.sheet.int_of(&row), Fit::Fits(x) if !holds(x, bytes)) {
            self.state.trace.note(Note::Narrowed, from);
        }
    }

    /// A hash has four bytes; a text is hashed and not cut.
    pub fn note_hash(&mut self, from: From) {
        if matches!(self.row(from.row).kind, I64 | U64) {
            self.note_number(4, from);
        }
    }

    /// The number of an enum or of flags; the value of a name is its entry's. Flags may be Arrays in one another.
    pub(super) fn note_named(&mut self, bytes: usize, from: From) {
        let row = self.row(from.row);
        match row.kind {
            HASH => {}
            ARRAY => self.sheet.children(&row).for_each(|r| self.note_named(4, from.at(r))),
            _ => self.note_number(bytes, from),
        }
    }

    /// What is written, with the row of the float's text where that is an item of an Array.
    pub(super) fn from_float<T>(&self, fit: &Fit<T>, from: From, is: impl Fn(&Row) -> bool) -> From {
        match (fit, from.row) {
            (Fit::FloatText, Some(row)) => from.at(self.sheet.first_of(row, &is)),
            _ => from,
        }
    }

    pub(super) fn scalar(&mut self, at: At, buf: &mut Buffer) -> Result<(), u32> {
        let ty = at.member.ty;
        let (case, _) = scalar_case(ty).unwrap();
        let n = scalar_size(ty);
        if !self.fits(at, case, n)? {
            return Ok(());
        }
        if at.value.is_none() {
            self.state.hits.hit(case, Way::Missing);
        }
        let row = self.row(at.value);
        self.step_parts(ty, at.value)?;
        let fit = self.scalar_bytes(ty, &row);
        let from = self.from_float(&fit, at.from(), |r| matches!(self.sheet.float_of(r), Fit::FloatText));
        let Some(b) = self.settled(case, fit, from)? else { return self.wrong(at, case) };
        self.state.hits.hit(case, Way::Written);
        self.note_scalar(ty, at.from());
        buf.put(at.member.offset as usize, &b[..n]);
        Ok(())
    }

    pub(super) fn string(&mut self, at: At, buf: &mut Buffer) -> Result<(), u32> {
        let (m, off) = (at.member, at.member.offset as usize);
        let (case, need) = match m.subtype {
            0 => (Case::String0, (m.reference >> 16) as usize),
            1 => (Case::String1, 8),
            2 => (Case::String2, 8),
            3 => (Case::String3, 16),
            7 => (Case::String7, 4),
            8 => (Case::String8, 4),
            _ => {
                self.state.hits.hit(Case::StringOther, Way::Remark);
                return self.remark(at, 3, m.subtype as u32);
            }
        };
        if !self.fits(at, case, need)? {
            return Ok(());
        }
        if need == 4 && m.subtype >= 7 {
            return self.hash(at, case, buf);
        }
        let row = self.seen(at, case, Place::Text);
        let sheet = self.sheet;
        let Some(t) = sheet.str_of(&row) else { return self.wrong(at, case) };
        self.state.hits.hit(case, if t.is_empty() { Way::Empty } else { Way::Written });
        if m.subtype == 0 {
            buf.put(off, self.cut(case, t, need, at.from()));
            return Ok(());
        }
        self.text_slot(m.subtype, t, at.from(), off, buf)
    }

    fn hash(&mut self, at: At, case: Case, buf: &mut Buffer) -> Result<(), u32> {
        let row = self.seen(at, case, Place::Hash);
        let Some(h) = self.sheet.hash_of(&row) else { return self.wrong(at, case) };
        self.state.hits.hit(case, Way::Written);
        self.note_hash(at.from());
        buf.put(at.member.offset as usize, &h.to_be_bytes());
        Ok(())
    }

    /// The part of a text that a room takes with a closing zero.
    pub fn cut<'t>(&mut self, case: Case, t: &'t [u8], room: usize, from: From) -> &'t [u8] {
        let n = t.len().min(room.saturating_sub(1));
        if n < t.len() {
            self.state.hits.hit(case, Way::Cut);
            self.state.trace.note(Note::TextCut, from);
        }
        &t[..n]
    }

    /// A text by pointer, with its length in subtype 3; an empty text is not laid.
    pub fn text_slot(&mut self, subtype: u8, t: &[u8], from: From, at: usize, buf: &mut Buffer) -> Result<(), u32> {
        if t.is_empty() {
            buf.put_nothing(at, self.state.nothing(from), subtype == 3);
            return Ok(());
        }
        self.state.pay(16 + t.len() as u64 + 1, from)?;
        let laid = self.state.lay(false, 1, Buffer::of([t, &[0]].concat()), from)?;
        match subtype {
            3 => buf.put_counted(at, laid, t.len()),
            _ => buf.put_pointer(at, laid),
        }
        Ok(())
    }

    /// An enum that the schema has is used.
    pub fn use_enum(&mut self, name: u32, row: Option<usize>) -> bool {
        let known = self.schema.enumeration(name).is_some();
        self.state.effort.names += self.schema.weight();
        if known {
            self.state.enums.add(name, row);
        }
        known
    }

    pub fn entries(&mut self, name: u32) -> &'a [(u32, u32)] {
        self.state.effort.names += self.schema.weight();
        self.schema.enumeration(name).map_or(&[], |e| &e.entries)
    }

    /// Entries are looked at for each name in the value.
    pub fn step_entries(&mut self, entries: &[(u32, u32)], value: Option<usize>) -> Result<(), u32> {
        self.state.step(self.sheet.most_names(value) * entries.len() as u64 / 16)
    }

    fn named(&mut self, at: At, case: Case, name: u32, fit: Fit<u32>, buf: &mut Buffer) -> Result<(), u32> {
        let Some(x) = self.settled(case, fit, at.from())? else { return self.wrong(at, case) };
        let known = self.use_enum(name, at.value);
        self.state.hits.hit(case, if known { Way::Known } else { Way::Unknown });
        let n = named_size(at.member.subtype);
        self.note_named(n, at.from());
        if !holds(x as i32 as i64 as u64, n) {
            self.state.trace.note(Note::Narrowed, at.from());
        }
        buf.put(at.member.offset as usize, &x.to_be_bytes()[4 - n..]);
        Ok(())
    }

    pub(super) fn enumeration(&mut self, at: At, buf: &mut Buffer) -> Result<(), u32> {
        let m = at.member;
        let case = [Case::Enum4, Case::Enum2, Case::Enum1][m.subtype.min(2) as usize];
        if !self.fits(at, case, named_size(m.subtype))? {
            return Ok(());
        }
        let row = self.seen(at, case, Place::Enum);
        let entries = self.entries(m.reference);
        self.step_entries(entries, at.value)?;
        self.count_enum(&row, entries);
        let fit = self.sheet.enum_value(&row, entries);
        self.named(at, case, m.reference, fit, buf)
    }

    /// The reference of the numbered member; out of range it is 0.
    pub(super) fn reference_at(&mut self, at: At, case: Case, index: usize) -> u32 {
        match at.def.members.get(index) {
            Some(m) => m.reference,
            None => {
                self.state.hits.hit(case, Way::OutOfRange);
                0
            }
        }
    }

    pub(super) fn flags(&mut self, at: At, buf: &mut Buffer) -> Result<(), u32> {
        let m = at.member;
        let case = [Case::Flags4, Case::Flags2, Case::Flags1][m.subtype.min(2) as usize];
        if !self.fits(at, case, named_size(m.subtype))? {
            return Ok(());
        }
        let name = self.reference_at(at, case, (m.reference & 0xFFF) as usize);
        let row = self.seen(at, case, Place::Flags);
        let entries = self.entries(name);
        self.step_entries(entries, at.value)?;
        self.count_flags(&row, entries);
        let fit = self.sheet.flags_bits(&row, entries);
        let is = |r: &Row| matches!(self.sheet.flags_bits(r, entries), Fit::FloatText);
        let from = self.from_float(&fit, at.from(), is);
        self.named(At { value: from.row, ..at }, case, name, fit, buf)
    }
}
