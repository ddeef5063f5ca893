//! What a build has to tell: its remarks, each with the rows behind it.
use crate::library::Remark;
use crate::names::Names;
use crate::scene::Scene;
use crate::words;
use sandvurek_model::model::trace::MOST_ROWS;
use serde::Serialize;

/// So many rows are shown; one more is kept, to know that there are more.
const SHOWN: usize = MOST_ROWS - 1;

/// A remark with the rows behind it: the first ones in row order, and whether there are more.
#[derive(Serialize)]
pub struct Told {
    #[serde(flatten)]
    pub remark: Remark,
    pub rows: Vec<usize>,
    pub more: bool,
    /// The remark in words, with its rows.
    pub text: String,
}

/// The library's remarks in their order, with rows where the scene was followed.
pub fn told(remarks: &[Remark], scene: Option<&Scene>, names: &Names) -> Vec<Told> {
    let rows = scene.and_then(|s| s.rows(remarks));
    let of = |k: usize| rows.map_or(&[][..], |rows| &rows[k]);
    remarks.iter().enumerate().map(|(k, r)| tell(r, of(k), names)).collect()
}

fn tell(remark: &Remark, rows: &[usize], names: &Names) -> Told {
    let more = rows.len() > SHOWN;
    let rows = rows[..rows.len().min(SHOWN)].to_vec();
    let text = words::remark(remark, names) + &place(&rows, more);
    Told { remark: *remark, rows, more, text }
}

/// " (row 44)", " (rows 1, 2)", nothing where no row is behind a remark.
fn place(rows: &[usize], more: bool) -> String {
    let mut list: Vec<String> = rows.iter().map(usize::to_string).collect();
    if more {
        list.push("and more".into());
    }
    match list.len() {
        0 => String::new(),
        1 => format!(" (row {})", list[0]),
        _ => format!(" (rows {})", list.join(", ")),
    }
}
