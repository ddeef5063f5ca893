//! `dump`: a sheet as an indented tree with row numbers.
use crate::arguments::Dump;
use crate::names::Names;
use crate::sheet::{Row, Sheet, MAP, STR, STRUCT};
use crate::words::refused;
use crate::{files, library, output, places, Stop, DONE};
use std::io::{self, Write};

/// A float, with its bits where the number does not tell them.
fn float(bits: u32) -> String {
    let f = f32::from_bits(bits);
    if f.is_nan() {
        format!("NaN (0x{bits:08X})")
    } else {
        format!("{f:?}")
    }
}

/// A value on its line.
fn value(sheet: &Sheet, row: &Row, names: &Names) -> String {
    let [a, b, c, d] = row.fields;
    let wide = (a as u64) << 32 | b as u64;
    match row.kind {
        0 => String::new(),
        1 => (a == 1).to_string(),
        2 | 4 | 6 | 16 => (a as i32).to_string(),
        3 | 5 | 7 => a.to_string(),
        8 => (wide as i64).to_string(),
        9 => wide.to_string(),
        10 => float(a),
        11 => [a, b].map(float).join(", "),
        12 => [a, b, c].map(float).join(", "),
        13 => [a, b, c, d].map(float).join(", "),
        14 => names.shown(a),
        STR => format!("\"{}\"", sheet.text(row).escape_ascii()),
        17 => format!("0x{a:X}"),
        18 => String::new(),
        MAP => format!("{b} pair{}", if b == 1 { "" } else { "s" }),
        STRUCT => names.shown(a),
        _ => format!("{b} item{}", if b == 1 { "" } else { "s" }),
    }
}

/// A sheet with what its lines need.
struct Tree<'a> {
    sheet: Sheet<'a>,
    names: Names,
    width: usize,
}

impl Tree<'_> {
    /// A row and, below it, its children.
    fn write(&self, at: usize, level: usize, label: &str, out: &mut impl Write) -> io::Result<()> {
        let row = &self.sheet.rows[at];
        let (kind, value) = (row.kind_name(), value(&self.sheet, row, &self.names));
        let (width, indent) = (self.width, 2 * level);
        let line = format!("{at:width$}  {:indent$}{label}{kind} {value}", "");
        writeln!(out, "{}", line.trim_end())?;
        for (k, child) in self.sheet.children(row).enumerate() {
            let label = match row.kind {
                STRUCT => format!("{}: ", self.names.shown(self.sheet.rows[child].name)),
                MAP if k % 2 == 0 => "key: ".into(),
                MAP => "value: ".into(),
                _ => String::new(),
            };
            self.write(child, level + 1, &label, out)?;
        }
        Ok(())
    }
}

pub fn run(o: &Dump) -> Result<u8, Stop> {
    let mut out = output::open()?;
    let names = Names::of(o.names.as_deref())?;
    let bytes = files::read_sheet(&o.sheet)?;
    let code = library::check_sheet(&bytes).map_err(Stop::failed)?;
    let refusal = || {
        let place = places::of_sheet(code, &bytes);
        format!("{}: {}", files::shown(&o.sheet), refused(code, place.as_deref()))
    };
    if code == 1 {
        return Err(Stop::failed(refusal()));
    }
    let sheet = Sheet::of(&bytes).map_err(|e| Stop::failed(format!("{}: {e}", files::shown(&o.sheet))))?;
    let width = (sheet.rows.len() - 1).to_string().len();
    let tree = Tree { sheet, names, width };
    output::written(tree.write(0, 0, "", &mut out).and_then(|()| out.flush()))?;
    // What cannot be packed is shown all the same.
    if code != 0 {
        return Err(Stop::failed(refusal()));
    }
    Ok(DONE)
}
