//! The value sheet: rows, children, texts; refusals 1, 2 and 3.
use crate::bytes::u32_at;
use std::collections::HashMap;
use std::ops::Range;

pub const NULL: u8 = 0;
pub const BOOL: u8 = 1;
pub const I8: u8 = 2;
pub const U8: u8 = 3;
pub const I16: u8 = 4;
pub const U16: u8 = 5;
pub const I32: u8 = 6;
pub const U32: u8 = 7;
pub const I64: u8 = 8;
pub const U64: u8 = 9;
pub const F32: u8 = 10;
pub const VEC2: u8 = 11;
pub const VEC3: u8 = 12;
pub const VEC4: u8 = 13;
pub const HASH: u8 = 14;
pub const STR: u8 = 15;
pub const ENUM: u8 = 16;
pub const FLAGS: u8 = 17;
pub const BYTES: u8 = 18;
pub const ARRAY: u8 = 19;
pub const MAP: u8 = 20;
pub const STRUCT: u8 = 21;

pub const KINDS: [&str; 22] = [
    "Null", "Bool", "I8", "U8", "I16", "U16", "I32", "U32", "I64", "U64", "F32", "Vec2", "Vec3", "Vec4", "Hash", "Str",
    "Enum", "Flags", "Bytes", "Array", "Map", "Struct",
];

pub const MAX_ROWS: usize = 16_384;
pub const MAX_TEXT: usize = 65_535;
pub const MAX_LEVELS: u32 = 64;

#[derive(Clone, Copy, Debug)]
pub struct Row {
    pub kind: u8,
    pub name: u32,
    pub a: u32,
    pub b: u32,
    pub c: u32,
    pub d: u32,
}

pub struct Sheet<'a> {
    pub rows: Vec<Row>,
    pub texts: &'a [u8],
    /// The first child of a name, by the Struct's row.
    named: HashMap<(usize, u32), usize>,
    /// How long it takes to read a row with all that is below it: a step for a row and for 16 bytes of text, times 16.
    weights: Vec<u64>,
}

/// How many of a, b, c, d a kind uses.
fn fields_used(kind: u8) -> usize {
    match kind {
        NULL | BYTES => 0,
        VEC4 => 4,
        VEC3 | STRUCT => 3,
        I64 | U64 | VEC2 | STR | ARRAY | MAP => 2,
        _ => 1,
    }
}

/// The row alone: unused fields are zero, numbers are within their width.
fn row_sound(row: &Row) -> bool {
    let fields = [row.a, row.b, row.c, row.d];
    if fields[fields_used(row.kind)..].iter().any(|x| *x != 0) {
        return false;
    }
    match row.kind {
        BOOL => row.a <= 1,
        I8 => (-128..=127).contains(&(row.a as i32)),
        U8 => row.a <= 255,
        I16 => (-32_768..=32_767).contains(&(row.a as i32)),
        U16 => row.a <= 65_535,
        _ => true,
    }
}

impl Row {
    /// First child and number of children, of a container.
    fn claim(&self) -> Option<(u64, u64)> {
        match self.kind {
            ARRAY => Some((self.a as u64, self.b as u64)),
            MAP => Some((self.a as u64, 2 * self.b as u64)),
            STRUCT => Some((self.b as u64, self.c as u64)),
            _ => None,
        }
    }
}

impl<'a> Sheet<'a> {
    /// The sheet, or refusal 1, 2 or 3: each is judged over the whole sheet.
    pub fn read(bytes: &'a [u8]) -> Result<Sheet<'a>, u32> {
        let mut sheet = Sheet::rows_of(bytes).ok_or(1u32)?;
        if !sheet.laid_out() {
            return Err(1);
        }
        sheet.look_over();
        if sheet.texts.iter().any(|b| *b > 127) {
            return Err(2);
        }
        if sheet.rows[0].kind != STRUCT {
            return Err(3);
        }
        Ok(sheet)
    }

    /// A text area alone, for rows that stand in no sheet.
    pub fn of_text(texts: &'a [u8]) -> Sheet<'a> {
        Sheet { rows: Vec::new(), texts, named: HashMap::new(), weights: Vec::new() }
    }

    fn rows_of(bytes: &'a [u8]) -> Option<Sheet<'a>> {
        if bytes.len() < 4 {
            return None;
        }
        let n = u32_at(bytes, 0) as usize;
        if !(1..=MAX_ROWS).contains(&n) || bytes.len() < 4 + 24 * n {
            return None;
        }
        let texts = &bytes[4 + 24 * n..];
        if texts.len() > MAX_TEXT {
            return None;
        }
        let mut rows = Vec::with_capacity(n);
        for r in bytes[4..4 + 24 * n].chunks(24) {
            if r[0] > STRUCT || r[1..4] != [0, 0, 0] {
                return None;
            }
            rows.push(Row { kind: r[0], name: u32_at(r, 4), a: u32_at(r, 8), b: u32_at(r, 12), c: u32_at(r, 16), d: u32_at(r, 20) });
        }
        Some(Sheet { rows, ..Sheet::of_text(texts) })
    }

    /// Every row is sound, each row but the first is the child of one earlier row, all texts are used.
    fn laid_out(&self) -> bool {
        let n = self.rows.len() as u64;
        let mut level = vec![0u32; self.rows.len()];
        level[0] = 1;
        let (mut next_child, mut next_text) = (1u64, 0u64);
        if self.rows[0].name != 0 {
            return false;
        }
        for (i, row) in self.rows.iter().enumerate() {
            if level[i] == 0 || level[i] > MAX_LEVELS || !row_sound(row) {
                return false;
            }
            if row.kind == STR {
                if row.a as u64 != next_text {
                    return false;
                }
                next_text += row.b as u64;
            }
            let Some((first, count)) = row.claim() else { continue };
            if first != next_child || first + count > n {
                return false;
            }
            next_child += count;
            for child in first as usize..next_child as usize {
                level[child] = level[i] + 1;
                if row.kind != STRUCT && self.rows[child].name != 0 {
                    return false;
                }
            }
        }
        next_child == n && next_text == self.texts.len() as u64
    }

    /// Names and weights; children come behind their parents.
    fn look_over(&mut self) {
        self.weights = vec![16; self.rows.len()];
        for (i, row) in self.rows.iter().enumerate().rev() {
            let below: u64 = self.children(row).map(|c| self.weights[c]).sum();
            self.weights[i] += below + if row.kind == STR { row.b as u64 } else { 0 };
        }
        let structs = self.rows.iter().enumerate().filter(|(_, r)| r.kind == STRUCT);
        let mut named = HashMap::new();
        for (i, row) in structs {
            for c in self.children(row) {
                named.entry((i, self.rows[c].name)).or_insert(c);
            }
        }
        self.named = named;
    }

    /// The first child of a name of a Struct's row.
    pub fn named(&self, row: usize, name: u32) -> Option<usize> {
        self.named.get(&(row, name)).copied()
    }

    /// The row itself, or of an Array the first item of which a test holds.
    pub fn first_of(&self, row: usize, is: &impl Fn(&Row) -> bool) -> usize {
        let held = &self.rows[row];
        let item = if held.kind == ARRAY { self.children(held).find(|r| is(&self.rows[*r])) } else { None };
        item.map_or(row, |r| self.first_of(r, is))
    }

    /// At most so many names stand in a value: one for a row, one for two bytes of text.
    pub fn most_names(&self, value: Option<usize>) -> u64 {
        value.map_or(1, |r| 1 + self.weights[r] / 2)
    }

    /// About how many steps it takes to read a value.
    pub fn cost(&self, value: Option<usize>) -> u64 {
        1 + value.filter(|r| self.rows[*r].kind != STRUCT).map_or(0, |r| self.weights[r] / 16)
    }

    pub fn text(&self, row: &Row) -> &'a [u8] {
        &self.texts[row.a as usize..(row.a + row.b) as usize]
    }

    /// The rows that are children of one.
    pub fn children(&self, row: &Row) -> Range<usize> {
        let (first, count) = row.claim().unwrap_or((0, 0));
        first as usize..(first + count) as usize
    }
}
