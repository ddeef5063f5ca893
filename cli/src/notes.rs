//! What is left out without a remark, in words.
use crate::names::Names;
use crate::scene::Scene;
use sandvurek_model::model::trace::{From, Note};
use serde::Serialize;

/// A value that is left out, or a part of it, without a remark.
#[derive(Serialize)]
pub struct Noted {
    pub row: usize,
    pub structure: u32,
    pub member: u32,
    pub text: String,
}

/// The notes of a scene in row order, where it was followed.
pub fn noted(scene: Option<&Scene>, names: &Names) -> Vec<Noted> {
    let Some(scene) = scene else {
        let text = "the scene takes too many steps: no row was looked for".into();
        return vec![Noted { row: 0, structure: 0, member: 0, text }];
    };
    let tell = |(note, from): (Note, From)| Noted {
        row: from.row.unwrap_or(0),
        structure: from.structure,
        member: from.member,
        text: words(note, from, names),
    };
    scene.notes().map(tell).collect()
}

/// A note in words.
fn words(note: Note, from: From, names: &Names) -> String {
    let row = from.row.unwrap_or(0);
    let place = names.member(from.structure, from.member);
    let text = match note {
        Note::NotHeld if from.member == 0 => {
            let pair = names.shown(from.structure);
            return format!("row {row}: the pair structure {pair} has no member for it; it is left out");
        }
        Note::NotHeld => "the structure has no such member; the value is left out".into(),
        Note::Repeated => "an earlier value has the same name; this one is left out".into(),
        Note::Narrowed => "the number is cut to the member's width".into(),
        Note::Fraction => "the number's fraction is dropped".into(),
        Note::Extra => "there are more numbers than the vector holds; the last are left out".into(),
        Note::TextCut => "the text is cut to its room".into(),
        Note::ItemsCut => "there are more items than the array holds; the last are left out".into(),
        Note::Vanished(element) => format!("row {element} is no such element, so the array is left out"),
        Note::NoStructure => "the element is no structure; its pointer is zero".into(),
        Note::NoText => "the element is no text; an empty one stands for it".into(),
    };
    format!("row {row}, {place}: {text}")
}
