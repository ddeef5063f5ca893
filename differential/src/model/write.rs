//! A structure and the choice among its members; remarks.
use super::buffer::Buffer;
use super::coerce::Fit;
use super::nest::Reached;
use super::schema::{Member, Schema, Structure};
use super::sheet::{Row, Sheet, NULL, STRUCT};
use super::state::{Remark, State};
use super::trace::{From, Why};
use crate::branch::{Case, Place, Way};

pub const ARRAYINFO: u32 = 0x100;
pub const MAX_DEPTH: u32 = 32;
/// So many members are passed over in a step.
const MEMBERS_A_STEP: u64 = 8;

/// The values of a structure's members, by name: none, the children of a Struct's row, or a pair's.
pub enum Fields {
    None,
    Children(usize),
    Pair(Vec<(u32, usize)>),
}

pub struct Writer<'a> {
    pub sheet: &'a Sheet<'a>,
    pub schema: &'a Schema,
    pub state: State,
}

/// A member being written: its structure's definition, itself, its value's row, the structure's depth.
#[derive(Clone, Copy)]
pub struct At<'a> {
    pub def: &'a Structure,
    pub member: &'a Member,
    pub value: Option<usize>,
    pub depth: u32,
}

impl At<'_> {
    pub fn from(&self) -> From {
        From { structure: self.def.name, member: self.member.name, row: self.value }
    }
}

const MISSING: Row = Row { kind: NULL, name: 0, a: 0, b: 0, c: 0, d: 0 };

/// `type_name`, from 1 boolean to 12 map.
fn type_number(ty: u8) -> u32 {
    match ty {
        0x00 => 1,
        0x01..=0x06 | 0x1E | 0x20 => 2,
        0x07 => 3,
        0x08 => 4,
        0x09 | 0x14 => 5,
        0x0A | 0x15 => 6,
        0x0B => 7,
        0x0E => 8,
        0x0F => 9,
        0x0C => 10,
        0x0D => 11,
        0x10 => 12,
        _ => unreachable!(),
    }
}

/// The case of a scalar type, as a member and as an element.
pub fn scalar_case(ty: u8) -> Option<(Case, Case)> {
    Some(match ty {
        0x00 => (Case::Bool, Case::ElBool),
        0x01 => (Case::I8, Case::ElI8),
        0x02 => (Case::U8, Case::ElU8),
        0x03 => (Case::I16, Case::ElI16),
        0x04 => (Case::U16, Case::ElU16),
        0x05 => (Case::I32, Case::ElI32),
        0x06 => (Case::U32, Case::ElU32),
        0x07 => (Case::F32, Case::ElF32),
        0x08 => (Case::Vec2, Case::ElVec2),
        0x09 => (Case::Vec3, Case::ElVec3),
        0x0A => (Case::Vec4, Case::ElVec4),
        0x14 => (Case::Vec3A, Case::ElVec3A),
        0x15 => (Case::Vec4A, Case::ElVec4A),
        0x1E => (Case::HFloat, Case::ElHFloat),
        0x20 => (Case::Long, Case::ElLong),
        _ => return None,
    })
}

/// The bytes of a scalar member.
pub fn scalar_size(ty: u8) -> usize {
    match ty {
        0x00..=0x02 => 1,
        0x03 | 0x04 | 0x1E => 2,
        0x05..=0x07 => 4,
        0x08 | 0x20 => 8,
        0x09 | 0x14 => 12,
        _ => 16,
    }
}

/// The bytes of an enum or flags member.
pub fn named_size(subtype: u8) -> usize {
    match subtype {
        0 => 4,
        1 => 2,
        _ => 1,
    }
}

impl<'a> Writer<'a> {
    /// 8, then 9, then the structure is used and its members are written in order.
    pub fn structure(&mut self, def: &'a Structure, fields: &Fields, from: From, reached: Reached) -> Result<Buffer, u32> {
        let depth = reached.depth();
        if depth > MAX_DEPTH {
            self.state.refuse(8, from, Why::Depth { structure: def.name })?;
            self.state.pay(16 + def.size as u64, from)?;
            return Ok(Buffer::zeros(def.size as usize));
        }
        self.state.pay(16 + def.size as u64, from)?;
        self.state.step(def.members.len() as u64 / MEMBERS_A_STEP)?;
        self.state.effort.names += self.state.structures.names.len() as u64;
        self.state.structures.add(def.name, from.row);
        if let Fields::Children(row) = fields {
            self.state.trace.open(*row, def.name);
        }
        self.state.nest.enter(reached);
        let mut buf = Buffer::zeros(def.size as usize);
        for member in def.members.iter().filter(|m| m.name != ARRAYINFO) {
            let value = self.field(fields, member.name);
            self.member(At { def, member, value, depth }, &mut buf)?;
        }
        self.state.nest.leave();
        Ok(buf)
    }

    /// The row of the first value of a name.
    fn field(&mut self, fields: &Fields, name: u32) -> Option<usize> {
        let found = match fields {
            Fields::None => None,
            Fields::Children(row) => {
                self.state.effort.names += self.sheet.children(&self.sheet.rows[*row]).len() as u64;
                self.sheet.named(*row, name)
            }
            Fields::Pair(p) => p.iter().find(|f| f.0 == name).map(|f| f.1),
        };
        found.inspect(|row| self.state.trace.look(*row))
    }

    pub fn fields_of(&self, row: Option<usize>) -> Fields {
        row.filter(|r| self.sheet.rows[*r].kind == STRUCT).map_or(Fields::None, Fields::Children)
    }

    pub fn remark(&mut self, at: At, kind: u32, detail: u32) -> Result<(), u32> {
        self.remark_at(at, at.value, kind, detail)
    }

    /// A remark with another row than the member's value.
    pub fn remark_at(&mut self, at: At, row: Option<usize>, kind: u32, detail: u32) -> Result<(), u32> {
        self.state.note(Remark { kind, structure: at.def.name, member: at.member.name, detail }, row)
    }

    /// Whether `n` bytes fit; else remark 1.
    pub(super) fn fits(&mut self, at: At, case: Case, n: usize) -> Result<bool, u32> {
        if at.member.offset as u64 + n as u64 <= at.def.size as u64 {
            return Ok(true);
        }
        self.state.hits.hit(case, Way::NoFit);
        self.remark(at, 1, at.def.size)?;
        Ok(false)
    }

    pub(super) fn wrong(&mut self, at: At, case: Case) -> Result<(), u32> {
        self.state.hits.hit(case, Way::Wrong);
        match at.value {
            None => Ok(()),
            Some(_) => self.remark(at, 2, type_number(at.member.ty)),
        }
    }

    pub(super) fn seen(&mut self, at: At, case: Case, place: Place) -> Row {
        match at.value {
            None => self.state.hits.hit(case, Way::Missing),
            Some(row) => self.state.hits.value(place, self.sheet.rows[row].kind),
        }
        self.row(at.value)
    }

    /// A value, Null where it is missing.
    pub(super) fn row(&self, value: Option<usize>) -> Row {
        value.map_or(MISSING, |r| self.sheet.rows[r])
    }

    /// A structure's definition; the library looks through the index.
    pub(super) fn defined(&mut self, name: u32) -> Option<&'a Structure> {
        self.state.effort.names += self.schema.weight();
        self.schema.structure(name)
    }

    /// What coercion gave; none where the value is unfit. A float's text is refused.
    pub(super) fn settled<T: Default>(&mut self, case: Case, fit: Fit<T>, from: From) -> Result<Option<T>, u32> {
        match fit {
            Fit::Fits(x) => Ok(Some(x)),
            Fit::Unfit => Ok(None),
            Fit::FloatText => {
                self.state.hits.hit(case, Way::FloatText);
                self.state.refuse(11, from, Why::FloatText)?;
                Ok(Some(T::default()))
            }
        }
    }

    fn member(&mut self, at: At<'a>, buf: &mut Buffer) -> Result<(), u32> {
        let m = at.member;
        self.state.step(self.sheet.cost(at.value))?;
        if scalar_case(m.ty).is_some() {
            return self.scalar(at, buf);
        }
        match m.ty {
            0x0B => self.string(at, buf),
            0x0C => self.structure_member(at, buf),
            0x0D => self.array(at, buf),
            0x0E => self.enumeration(at, buf),
            0x0F => self.flags(at, buf),
            0x10 => self.map(at, buf),
            _ => {
                self.state.hits.hit(Case::Other, Way::Remark);
                self.remark(at, 13, m.ty as u32)
            }
        }
    }
}
