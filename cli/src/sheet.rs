//! A sheet's rows, and the first row that breaks the layout.
use crate::bytes::u32_at;
use crate::files::LONGEST_SHEET;
use std::ops::Range;

pub const STR: u8 = 15;
pub const ARRAY: u8 = 19;
pub const MAP: u8 = 20;
pub const STRUCT: u8 = 21;

const KINDS: [&str; 22] = [
    "Null", "Bool", "I8", "U8", "I16", "U16", "I32", "U32", "I64", "U64", "F32", "Vec2", "Vec3", "Vec4", "Hash", "Str",
    "Enum", "Flags", "Bytes", "Array", "Map", "Struct",
];
/// How many of a, b, c, d each kind uses.
const USED: [usize; 22] = [0, 1, 1, 1, 1, 1, 1, 1, 2, 2, 1, 2, 3, 4, 1, 2, 1, 1, 0, 2, 2, 3];

const MOST_ROWS: usize = 16_384;
const MOST_TEXT: usize = 65_535;
const MOST_LEVELS: u32 = 64;

#[derive(Clone, Copy)]
pub struct Row {
    pub kind: u8,
    pub name: u32,
    pub fields: [u32; 4],
}

pub struct Sheet<'a> {
    pub rows: Vec<Row>,
    pub texts: &'a [u8],
}

impl Row {
    pub fn kind_name(&self) -> &'static str {
        KINDS[self.kind as usize]
    }

    /// First child and number of children of a container.
    fn claim(&self) -> Option<(u64, u64)> {
        let [a, b, c, _] = self.fields.map(u64::from);
        match self.kind {
            ARRAY => Some((a, b)),
            MAP => Some((a, 2 * b)),
            STRUCT => Some((b, c)),
            _ => None,
        }
    }

    /// What is wrong with the row alone.
    fn fault(&self) -> Option<String> {
        let unused = USED[self.kind as usize];
        if let Some(k) = (unused..4).find(|k| self.fields[*k] != 0) {
            return Some(format!("{} does not use {}, which is not zero", self.kind_name(), ["a", "b", "c", "d"][k]));
        }
        let (a, signed) = (self.fields[0], self.fields[0] as i32);
        let fits = match self.kind {
            1 => a <= 1,
            2 => signed as i8 as i32 == signed,
            3 => a <= 255,
            4 => signed as i16 as i32 == signed,
            5 => a <= 65_535,
            _ => true,
        };
        (!fits).then(|| format!("0x{a:X} is no {}", self.kind_name()))
    }
}

/// The bytes of a sheet's rows, or why its length does not fit its row count.
pub fn row_area(bytes: &[u8]) -> Result<Range<usize>, String> {
    if bytes.len() > LONGEST_SHEET {
        return Err(format!("longer than the longest sheet, {LONGEST_SHEET} bytes"));
    }
    if bytes.len() < 4 {
        return Err(format!("{} bytes, the row count has 4", bytes.len()));
    }
    let n = u32_at(bytes, 0) as usize;
    if n == 0 || n > MOST_ROWS {
        return Err(format!("{n} rows, 1 to {MOST_ROWS} are allowed"));
    }
    let end = 4 + 24 * n;
    if bytes.len() < end {
        return Err(format!("{n} rows need {end} bytes, there are {}", bytes.len()));
    }
    if bytes.len() - end > MOST_TEXT {
        return Err(format!("{} bytes of text, at most {MOST_TEXT} are allowed", bytes.len() - end));
    }
    Ok(4..end)
}

/// The rows of a sheet and its text area, or what is wrong.
fn rows(bytes: &[u8]) -> Result<Sheet<'_>, String> {
    let area = row_area(bytes)?;
    let end = area.end;
    let mut found = Vec::with_capacity(area.len() / 24);
    for (i, r) in bytes[area].chunks(24).enumerate() {
        if r[0] as usize >= KINDS.len() {
            return Err(format!("row {i}: there is no kind {}", r[0]));
        }
        if r[1..4] != [0, 0, 0] {
            return Err(format!("row {i}: the three bytes behind the kind are not zero"));
        }
        let field = |k: usize| u32_at(r, 8 + 4 * k);
        found.push(Row { kind: r[0], name: u32_at(r, 4), fields: [field(0), field(1), field(2), field(3)] });
    }
    Ok(Sheet { rows: found, texts: &bytes[end..] })
}

impl<'a> Sheet<'a> {
    /// The sheet, or the first thing that breaks the layout.
    pub fn of(bytes: &'a [u8]) -> Result<Sheet<'a>, String> {
        let sheet = rows(bytes)?;
        sheet.check()?;
        Ok(sheet)
    }

    /// Each row but row 0 is the child of an earlier row, children and texts follow without gap.
    fn check(&self) -> Result<(), String> {
        let mut levels = vec![0u32; self.rows.len()];
        levels[0] = 1;
        let (mut child, mut text) = (1u64, 0u64);
        if self.rows[0].name != 0 {
            return Err("row 0: the root has a member name".into());
        }
        for (i, row) in self.rows.iter().enumerate() {
            self.check_row(i, &mut levels, &mut child, &mut text).map_err(|e| format!("row {i}: {e}"))?;
            if row.kind != STRUCT && self.children(row).any(|c| self.rows[c].name != 0) {
                return Err(format!("row {i}: a child has a member name, which only children of a Struct have"));
            }
        }
        if text != self.texts.len() as u64 {
            return Err(format!("{} bytes of text, {text} are used", self.texts.len()));
        }
        Ok(())
    }

    /// One row against what is due at it.
    fn check_row(&self, i: usize, levels: &mut [u32], child: &mut u64, text: &mut u64) -> Result<(), String> {
        let row = &self.rows[i];
        if levels[i] == 0 {
            return Err("not the child of an earlier row".into());
        }
        if levels[i] > MOST_LEVELS {
            return Err(format!("level {}, at most {MOST_LEVELS} are allowed", levels[i]));
        }
        if let Some(fault) = row.fault() {
            return Err(fault);
        }
        if row.kind == STR {
            let (start, length) = (row.fields[0] as u64, row.fields[1] as u64);
            if start != *text {
                return Err(format!("the text starts at {start}, {text} is due"));
            }
            *text += length;
            if *text > self.texts.len() as u64 {
                return Err(format!("the text ends at {text}, the text area has {} bytes", self.texts.len()));
            }
        }
        let Some((first, count)) = row.claim() else { return Ok(()) };
        if first != *child {
            return Err(format!("the first child is {first}, {child} is due"));
        }
        *child += count;
        if *child > self.rows.len() as u64 {
            return Err(format!("children up to row {}, there are {} rows", *child - 1, self.rows.len()));
        }
        let level = levels[i] + 1;
        levels[first as usize..*child as usize].fill(level);
        Ok(())
    }

    pub fn text(&self, row: &Row) -> &'a [u8] {
        &self.texts[row.fields[0] as usize..(row.fields[0] + row.fields[1]) as usize]
    }

    /// The rows that are children of one.
    pub fn children(&self, row: &Row) -> Range<usize> {
        let (first, count) = row.claim().unwrap_or((0, 0));
        first as usize..(first + count) as usize
    }
}
