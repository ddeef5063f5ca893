//! Inputs for benchmarks.
use crate::bytes::{push_u16, push_u32};
use crate::gen::plan::{member, section, Body, Plan};
use crate::gen::tree::Tree;
use crate::model::schema::{PMAP, PSIN};
use crate::model::sheet::{F32, FLAGS, HASH, U32, VEC3, VEC4};
use crate::model::text::hash_text;
use crate::model::write::ARRAYINFO;
use crate::rng::Rng;

pub struct Scene {
    pub name: &'static str,
    pub sheet: Vec<u8>,
    pub schema: Vec<u8>,
}

fn scene(name: &'static str, tree: Tree, plan: Plan) -> Scene {
    Scene { name, sheet: tree.sheet(), schema: plan.bytes() }
}

/// Document 01's first case.
fn small() -> Scene {
    let plan = Plan::of(vec![(0x40, Body::Structure(0, 4, 0, vec![member(0x41, 6, 0, 0, 0)]))]);
    scene("small pack", Tree::Struct(0x40, vec![(0x41, Tree::leaf(U32, 7))]), plan)
}

/// Names as a schema has them.
fn name(s: &str) -> u32 {
    hash_text(s.as_bytes())
}

fn map_schema() -> Vec<(u32, Body)> {
    let entity = vec![
        member(name("archetypeName"), 0x0B, 7, 0, 0),
        member(ARRAYINFO, 0x0E, 0, 0, name("eFlags")),
        member(name("flags"), 0x0F, 0, 4, 1),
        member(name("guid"), 6, 0, 8, 0),
        member(name("position"), 9, 0, 16, 0),
        member(name("rotation"), 0x0A, 0, 32, 0),
        member(name("scaleXY"), 7, 0, 48, 0),
        member(name("scaleZ"), 7, 0, 52, 0),
        member(name("parentIndex"), 5, 0, 56, 0),
        member(name("lodDist"), 7, 0, 60, 0),
        member(name("lodLevel"), 0x0E, 0, 64, name("eLod")),
        member(name("label"), 0x0B, 1, 72, 0),
        member(ARRAYINFO, 0x0C, 0, 0, name("Light")),
        member(name("lights"), 0x0D, 0, 80, 12),
    ];
    let light = vec![member(name("position"), 9, 0, 0, 0), member(name("colour"), 6, 0, 12, 0), member(name("cone"), 7, 0, 16, 0), member(name("kind"), 2, 0, 20, 0)];
    let extents = vec![member(name("min"), 9, 0, 0, 0), member(name("max"), 9, 0, 16, 0)];
    let root = vec![
        member(name("name"), 0x0B, 7, 0, 0),
        member(name("parent"), 0x0B, 7, 4, 0),
        member(name("extents"), 0x0C, 0, 16, name("Extents")),
        member(ARRAYINFO, 0x0C, 3, 0, name("Entity")),
        member(name("entities"), 0x0D, 0, 48, 3),
        member(ARRAYINFO, 0x0B, 7, 0, 0),
        member(name("physics"), 0x0D, 0, 64, 5),
    ];
    let entries = |words: &[&str]| words.iter().enumerate().map(|(k, w)| (name(w), k as u32)).collect();
    vec![
        (name("Map"), Body::Structure(0, 80, 0, root)),
        (name("Entity"), Body::Structure(0, 96, 0, entity)),
        (name("Light"), Body::Structure(0, 24, 0, light)),
        (name("Extents"), Body::Structure(0, 32, 0, extents)),
        (name("eFlags"), Body::Enum(entries(&["FULLMATRIX", "STREAM_LOWPRIORITY", "DONT_INSTANCE", "IS_STATIC", "CAST_SHADOWS"]))),
        (name("eLod"), Body::Enum(entries(&["LOD_HD", "LOD", "LOD_SLOD1", "LOD_SLOD2", "ORPHAN_HD"]))),
    ]
}

fn vector(rng: &mut Rng, kind: u8, n: usize) -> Tree {
    let mut f = [0; 4];
    f[..n].iter_mut().for_each(|x| *x = (rng.below(20_000) as f32 / 8.0 - 1_000.0).to_bits());
    Tree::Leaf(kind, f)
}

fn entity(rng: &mut Rng, k: usize, labels: bool) -> Tree {
    let light = |rng: &mut Rng| {
        Tree::Struct(name("Light"), vec![(name("position"), vector(rng, VEC3, 3)), (name("colour"), Tree::leaf(U32, rng.u32())), (name("cone"), Tree::leaf(F32, 0x3F80_0000)), (name("kind"), Tree::leaf(U32, 2))])
    };
    let lights = if k % 4 == 0 { vec![light(rng), light(rng)] } else { Vec::new() };
    let mut fields = vec![
        (name("archetypeName"), Tree::Text(format!("prop_bench_{:02}", k % 40).into_bytes())),
        (name("flags"), if k % 3 == 0 { Tree::text(b"IS_STATIC, CAST_SHADOWS") } else { Tree::leaf(FLAGS, 8) }),
        (name("guid"), Tree::leaf(U32, rng.u32())),
        (name("position"), vector(rng, VEC3, 3)),
        (name("rotation"), vector(rng, VEC4, 4)),
        (name("scaleXY"), Tree::leaf(U32, 1)),
        (name("scaleZ"), Tree::leaf(F32, 0x3F80_0000)),
        (name("parentIndex"), Tree::text(b"-1")),
        (name("lodDist"), Tree::leaf(U32, 100)),
        (name("lodLevel"), Tree::text(b"LOD_SLOD1")),
        (name("lights"), Tree::Array(lights)),
    ];
    if labels {
        fields.push((name("label"), Tree::Text(format!("label {k}").into_bytes())));
    }
    Tree::Struct(name("Entity"), fields)
}

fn map(title: &'static str, entities: usize, physics: usize) -> Scene {
    let mut rng = Rng::of(7, entities as u64);
    let list = (0..entities).map(|k| entity(&mut rng, k, k % 2 == 0)).collect();
    let extents = Tree::Struct(name("Extents"), vec![(name("min"), vector(&mut rng, VEC3, 3)), (name("max"), vector(&mut rng, VEC3, 3))]);
    let fields = vec![
        (name("name"), Tree::text(b"hall_03")),
        (name("parent"), Tree::leaf(HASH, 0)),
        (name("extents"), extents),
        (name("entities"), Tree::Array(list)),
        (name("physics"), Tree::Array((0..physics).map(|_| Tree::leaf(HASH, rng.u32())).collect())),
    ];
    scene(title, Tree::Struct(name("Map"), fields), Plan::of(map_schema()))
}

fn texts() -> Scene {
    let root = vec![member(ARRAYINFO, 0x0B, 3, 0, 0), member(0x41, 0x0D, 0, 0, 0), member(ARRAYINFO, 0x0B, 1, 0, 0), member(0x42, 0x0D, 0, 16, 2)];
    let plan = Plan::of(vec![(0x40, Body::Structure(0, 32, 0, root))]);
    let list = |n: usize| Tree::Array((0..n).map(|k| Tree::Text(format!("text {k:06}").into_bytes())).collect());
    scene("many texts", Tree::Struct(0x40, vec![(0x41, list(2_500)), (0x42, list(2_500))]), plan)
}

/// Structures with two floats and a vector each, all as text.
fn decimals() -> Scene {
    let mut rng = Rng::of(7, 7);
    let lamp = vec![member(0x51, 9, 0, 0, 0), member(0x52, 7, 0, 16, 0), member(0x53, 7, 0, 20, 0)];
    let root = vec![member(ARRAYINFO, 0x0C, 0, 0, 0x50), member(0x41, 0x0D, 0, 0, 0)];
    let plan = Plan::of(vec![(0x40, Body::Structure(0, 16, 0, root)), (0x50, Body::Structure(0, 24, 0, lamp))]);
    let mut part = |whole: usize| format!("{}.{}", rng.below(whole), rng.below(1_000));
    let mut lamps = Vec::new();
    for _ in 0..1_600 {
        let place = format!("{}, -{}, {}", part(4_000), part(4_000), part(100));
        let fields = [(0x51, place), (0x52, part(100)), (0x53, part(10))].map(|(m, t)| (m, Tree::Text(t.into_bytes())));
        lamps.push(Tree::Struct(0x50, fields.to_vec()));
    }
    scene("decimals as text", Tree::Struct(0x40, vec![(0x41, Tree::Array(lamps))]), plan)
}

/// An array of structures 31 deep, each inline in the one before.
fn nesting() -> Scene {
    let depth = 30u32;
    let mut defs = vec![(0x40, Body::Structure(0, 16, 0, vec![member(ARRAYINFO, 0x0C, 0, 0, 0x100_0000), member(0x41, 0x0D, 0, 0, 0)]))];
    for k in 0..=depth {
        let mut m = vec![member(0x42, 6, 0, 0, 0)];
        if k < depth {
            m.push(member(0x43, 0x0C, 0, 4, 0x100_0000 + k + 1));
        }
        defs.push((0x100_0000 + k, Body::Structure(0, 4 * (depth - k + 1), 0, m)));
    }
    let mut tree = Tree::Struct(0x100_0000 + depth, vec![(0x42, Tree::leaf(U32, 1))]);
    for k in (0..depth).rev() {
        tree = Tree::Struct(0x100_0000 + k, vec![(0x42, Tree::leaf(U32, k)), (0x43, tree)]);
    }
    scene("deep inline nesting", Tree::Struct(0x40, vec![(0x41, Tree::Array(vec![tree; 200]))]), Plan::of(defs))
}

/// A scene with a schema of 5,000 definitions, its own in the middle.
fn definitions(scene: Scene) -> Scene {
    let other = |k: u32| (0x2000_0000 + k, Body::Structure(0, 16, 0, (0..8).map(|i| member(0x100_0000 + i, 6, 0, 0, 0)).collect()));
    let mut defs: Vec<(u32, Body)> = (0..2_500).map(other).collect();
    defs.extend(map_schema());
    defs.extend((2_500..4_994).map(other));
    Scene { schema: Plan::of(defs).bytes(), ..scene }
}

pub fn scenes() -> Vec<Scene> {
    let many = definitions(map("typical, 5,000 definitions", 40, 20));
    let most = definitions(map("large, 5,000 definitions", 1_050, 500));
    vec![small(), map("typical scene", 40, 20), map("large scene", 1_050, 500), texts(), decimals(), nesting(), many, most]
}

/// A file of 10 MB: data, 4,095 blocks, 500 definitions.
pub fn large_file() -> Vec<u8> {
    let mut out = section(PSIN, &vec![0x5A; 10_000_000]);
    let mut p = Vec::new();
    push_u32(&mut p, 1);
    push_u16(&mut p, 4_095);
    push_u16(&mut p, 0x7070);
    for k in 0..4_095u32 {
        for w in [k, 16 + k * 2_000, 0, 2_000] {
            push_u32(&mut p, w);
        }
    }
    out.extend(section(PMAP, &p));
    let body = |k: u32| (0x1000 + k, Body::Structure(0, 16, 0, (0..12).map(|i| member(0x41 + i, 6, 0, 0, 0)).collect()));
    out.extend(Plan::of((0..500).map(body).collect()).bytes());
    out
}
