//! Where a refusal comes from, as far as it can be seen without packing.
use crate::looks;
use crate::names::Names;
use crate::scene::Scene;
use crate::sections;
use crate::sheet::{Sheet, STR};
use crate::stops;

/// The place of a refusal of building: a row, a section, a definition. Of what is refused while it is laid it is seen
/// where the scene was followed.
pub fn of_build(code: u32, sheet: &[u8], schema: &[u8], scene: Option<&Scene>, names: &Names) -> Option<String> {
    match code {
        1..=3 => of_sheet(code, sheet),
        4..=6 => of_schema(code, schema),
        7 => Some(format!("type {}", names.shown(root_type(sheet)?))),
        8..=11 => scene.filter(|s| s.answer.as_ref().err() == Some(&code)).and_then(|s| stops::place(s, sheet, names)),
        _ => None,
    }
}

/// The type of a sheet's root.
pub fn root_type(sheet: &[u8]) -> Option<u32> {
    Some(Sheet::of(sheet).ok()?.rows[0].fields[0])
}

/// The place of a refusal of the schema file.
pub fn of_schema(code: u32, schema: &[u8]) -> Option<String> {
    if code == 4 && looks::is_sheet(schema) {
        return Some("this looks like a sheet, a schema file is due".into());
    }
    sections::schema_fault(schema).filter(|f| f.code == code).map(|f| f.place)
}

/// The place of a refusal of reading.
pub fn of_read(code: u32, file: &[u8]) -> Option<String> {
    if code == 15 && looks::is_sheet(file) {
        return Some("this looks like a sheet, a PSO file is due".into());
    }
    if code == 15 && sections::has_definitions(file) {
        return Some("this is a schema file, a pack is due".into());
    }
    sections::file_fault(file).filter(|f| f.code == code).map(|f| f.place)
}

/// The place of a refusal of the sheet.
pub fn of_sheet(code: u32, sheet: &[u8]) -> Option<String> {
    if code == 1 && looks::is_pso(sheet) {
        return Some("this is a PSO file, a sheet is due".into());
    }
    let sheet = match Sheet::of(sheet) {
        Err(place) => return (code == 1).then_some(place),
        Ok(sheet) => sheet,
    };
    match code {
        2 => high_byte(&sheet),
        3 => Some(format!("row 0 is {}", sheet.rows[0].kind_name())),
        _ => None,
    }
}

fn high_byte(sheet: &Sheet) -> Option<String> {
    let texts = sheet.rows.iter().enumerate().filter(|(_, r)| r.kind == STR);
    let mut found = texts.filter_map(|(i, r)| {
        let at = sheet.text(r).iter().position(|b| *b > 127)?;
        Some(format!("row {i}: byte {} of its text is 0x{:02X}", at + 1, sheet.text(r)[at]))
    });
    found.next()
}
