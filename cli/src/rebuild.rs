//! A scene built again for `accept`: what the library gives, and the scene followed row by row.
use crate::library::{Lent, Remark, LONGEST_PACK};
use crate::names::Names;
use crate::pack::work_lengths;
use crate::scene::{self, Lost, Scene};
use crate::sections::index_entries;
use crate::words::{commas, count, refused};
use crate::{library, places};

/// A rebuild takes so many different remarks.
const MOST_REMARKS: usize = 65_536;

/// Whose definitions a scene is built with.
#[derive(Clone, Copy)]
pub struct Schema<'a> {
    pub file: &'a [u8],
    /// "the pack", "the schema file".
    pub whose: &'a str,
}

/// What was built.
pub struct Rebuilt {
    pub file: Vec<u8>,
    pub remarks: Vec<Remark>,
    pub scene: Scene,
}

/// Why nothing was built.
pub enum Missing {
    /// The library refuses: the number, and the refusal in words.
    Refused(u32, String),
    /// It could not be tried, or not to the end.
    Unchecked(String),
}

fn lent(schema: &[u8], records: usize) -> Lent {
    Lent { work: work_lengths(schema).1, out: LONGEST_PACK, records }
}

/// A scene that can be built in the time that a check may take; none where it is refused before it is laid.
fn light(alone: bool, sheet: &[u8], schema: Schema) -> Result<Option<Scene>, Missing> {
    let what = format!("the scene with the definitions of {}", schema.whose);
    let most = commas(MOST_REMARKS as u64);
    Err(Missing::Unchecked(match Scene::of(alone, sheet, schema.file, lent(schema.file, MOST_REMARKS)) {
        Err(Lost::Refused) => return Ok(None),
        Err(Lost::Full) => format!("{what} has more than {most} different remarks"),
        Ok(scene) if scene.answer == Err(14) => format!("{what} has more than {most} different remarks"),
        Ok(scene) if scene.is_light() => return Ok(Some(scene)),
        _ => format!("{what} takes too many steps to be laid"),
    }))
}

/// A refusal of building. A sheet or a schema file that is broken says nothing about the pack.
fn refusal(code: u32, sheet: &[u8], schema: Schema, scene: Option<&Scene>, names: &Names) -> Missing {
    let place = places::of_build(code, sheet, schema.file, scene, names);
    let definitions = count(index_entries(schema.file) as u64, "definition");
    let place = place.map(|p| if code == 7 { format!("{p}; {} has {definitions}", schema.whose) } else { p });
    let refused = refused(code, place.as_deref());
    match code {
        1..=3 => Missing::Unchecked(format!("the sheet is refused: {refused}")),
        4..=6 => Missing::Unchecked(format!("{} is refused: {refused}", schema.whose)),
        _ => Missing::Refused(code, format!("building with the definitions of {} is refused: {refused}", schema.whose)),
    }
}

/// Builds a sheet with the definitions of a file, with as many records as it has different remarks; where `alone` says
/// so with the root in a new last block.
pub fn rebuild(alone: bool, sheet: &[u8], schema: Schema, names: &Names) -> Result<Rebuilt, Missing> {
    let scene = light(alone, sheet, schema)?;
    let records = scene.as_ref().map_or(0, |s| s.state.remarks.len());
    let most = lent(schema.file, records);
    let library::Built { code, file, remarks } =
        scene::build(alone, sheet, schema.file, scene.as_ref(), most).map_err(Missing::Unchecked)?;
    match scene {
        Some(mut scene) if code == 0 && scene.answer.as_ref() == Ok(&file) => {
            scene.answer = Ok(Vec::new());
            Ok(Rebuilt { file, remarks, scene })
        }
        _ if code == 0 => {
            let text = format!("the scene with the definitions of {} was followed to another pack", schema.whose);
            Err(Missing::Unchecked(text))
        }
        scene => Err(refusal(code, sheet, schema, scene.as_ref(), names)),
    }
}

/// A scene that is refused while it is laid, followed past the refusal to its end.
pub fn past_refusal(alone: bool, sheet: &[u8], schema: &[u8], why: &Missing) -> Option<Scene> {
    let Missing::Refused(8 | 10 | 11 | 13, _) = why else { return None };
    let scene = Scene::free(alone, sheet, schema, lent(schema, MOST_REMARKS)).ok()?;
    matches!(scene.answer, Ok(_) | Err(13)).then_some(scene)
}
