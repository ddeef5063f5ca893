//! Where a scene is refused while it is laid, in words.
use crate::names::Names;
use crate::scene::Scene;
use crate::sheet::{Sheet, STR};
use crate::words::commas;
use sandvurek_model::model::state::MAX_BLOCKS;
use sandvurek_model::model::text::{decimal, parses_float, parts, trim};
use sandvurek_model::model::trace::{From, Why};

/// "row 5, structure 0x40, member 0x41"; the root is no member.
pub fn member(from: From, names: &Names) -> String {
    match from {
        From::ROOT => "row 0, the root".into(),
        From { structure, member, row: None } => names.member(structure, member),
        From { structure, member, row: Some(row) } => format!("row {row}, {}", names.member(structure, member)),
    }
}

/// The place of refusal 8, 9, 10 or 11, with what would have come there.
pub fn place(scene: &Scene, sheet: &[u8], names: &Names) -> Option<String> {
    let stop = scene.state.trace.stop?;
    let here = member(stop.from, names);
    let text = match stop.why {
        Why::Depth { structure } => format!("structure {} would start there", names.shown(structure)),
        Why::Charge { charge, cost } => {
            let (charge, cost, cap) = (commas(charge), commas(cost), commas(scene.state.cap));
            format!("{charge} are charged, {cost} more would be, the cap is {cap}")
        }
        Why::Block { name, number, .. } if number > MAX_BLOCKS => {
            let counts = match stop.from {
                From::ROOT if scene.alone => ": the block added for the root counts",
                _ => "",
            };
            format!("block {} would be needed, of name {}{counts}", commas(number as u64), names.shown(name))
        }
        Why::Block { name, number, start } => {
            format!("start 0x{start:X} would be needed in block {number}, of name {}", names.shown(name))
        }
        Why::FloatText => text(stop.from, sheet)?,
    };
    Some(format!("{here}: {text}"))
}

/// The text that is a float and no decimal: a row's, or a part of it where it is a vector's.
fn text(from: From, sheet: &[u8]) -> Option<String> {
    let sheet = Sheet::of(sheet).ok()?;
    let row = sheet.rows.get(from.row?).filter(|r| r.kind == STR)?;
    let text = sheet.text(row);
    if parses_float(trim(text)) {
        return Some(format!("\"{}\"", text.escape_ascii()));
    }
    let (k, part) = parts(text).enumerate().find(|(_, p)| decimal(p).is_none())?;
    Some(format!("part {} of its text is \"{}\"", commas(k as u64 + 1), part.escape_ascii()))
}
