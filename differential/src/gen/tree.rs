//! Value trees, and the sheets that hold them.
use crate::bytes::{push_u32, put_u32};
use crate::model::sheet::*;

#[derive(Clone, Debug, PartialEq)]
pub enum Tree {
    /// A kind without children or text: its four fields.
    Leaf(u8, [u32; 4]),
    Text(Vec<u8>),
    Array(Vec<Tree>),
    /// Keys and values in turn.
    Map(Vec<Tree>),
    Struct(u32, Vec<(u32, Tree)>),
}

pub const NULL_LEAF: Tree = Tree::Leaf(NULL, [0; 4]);

impl Tree {
    pub fn leaf(kind: u8, a: u32) -> Tree {
        Tree::Leaf(kind, [a, 0, 0, 0])
    }

    pub fn text(s: &[u8]) -> Tree {
        Tree::Text(s.to_vec())
    }

    /// The sheet: rows breadth first, texts in row order.
    pub fn sheet(&self) -> Vec<u8> {
        let mut queue: Vec<(u32, &Tree)> = vec![(0, self)];
        let (mut rows, mut texts) = (Vec::new(), Vec::new());
        let mut at = 0;
        while at < queue.len() {
            let (name, tree) = queue[at];
            let first = queue.len() as u32;
            let (kind, fields) = match tree {
                Tree::Leaf(kind, fields) => (*kind, *fields),
                Tree::Text(t) => {
                    texts.extend_from_slice(t);
                    (STR, [(texts.len() - t.len()) as u32, t.len() as u32, 0, 0])
                }
                Tree::Array(v) => {
                    queue.extend(v.iter().map(|t| (0, t)));
                    (ARRAY, [first, v.len() as u32, 0, 0])
                }
                Tree::Map(v) => {
                    queue.extend(v.iter().map(|t| (0, t)));
                    (MAP, [first, v.len() as u32 / 2, 0, 0])
                }
                Tree::Struct(ty, f) => {
                    queue.extend(f.iter().map(|(n, t)| (*n, t)));
                    (STRUCT, [*ty, first, f.len() as u32, 0])
                }
            };
            push_row(&mut rows, kind, name, fields);
            at += 1;
        }
        let mut out = Vec::with_capacity(4 + rows.len() + texts.len());
        push_u32(&mut out, queue.len() as u32);
        out.extend_from_slice(&rows);
        out.extend_from_slice(&texts);
        out
    }

    /// The tree of a sheet that breaks no layout.
    pub fn of(bytes: &[u8]) -> Option<Tree> {
        match Sheet::read(bytes) {
            Ok(sheet) => Some(tree_at(&sheet, 0)),
            Err(_) => None,
        }
    }
}

fn push_row(rows: &mut Vec<u8>, kind: u8, name: u32, fields: [u32; 4]) {
    let at = rows.len();
    rows.resize(at + 24, 0);
    rows[at] = kind;
    put_u32(rows, at + 4, name);
    for (k, f) in fields.iter().enumerate() {
        put_u32(rows, at + 8 + 4 * k, *f);
    }
}

fn tree_at(sheet: &Sheet, r: usize) -> Tree {
    let row = &sheet.rows[r];
    let children = sheet.children(row);
    match row.kind {
        STR => Tree::text(sheet.text(row)),
        ARRAY => Tree::Array(children.map(|c| tree_at(sheet, c)).collect()),
        MAP => Tree::Map(children.map(|c| tree_at(sheet, c)).collect()),
        STRUCT => Tree::Struct(row.a, children.map(|c| (sheet.rows[c].name, tree_at(sheet, c))).collect()),
        kind => Tree::Leaf(kind, [row.a, row.b, row.c, row.d]),
    }
}
