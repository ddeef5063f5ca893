//! Writes files into a directory that make a careless reader slow or long: hostile DIRECTORY [PART]
//! With PART every shape is one part in so many of its size.
mod pso;

use pso::{index_section, row, schema, section, structure, words};
use std::{env, fs, path::Path};

/// A structure has at most so many members.
const MEMBERS: u32 = 65_535;

/// How large the shapes are: with part n, one in n.
struct Size(u32);

impl Size {
    fn of(&self, n: u32) -> u32 {
        (n / self.0).max(1)
    }

    fn names(&self) -> u32 {
        self.of(2_000)
    }

    fn members(&self) -> u32 {
        self.of(MEMBERS)
    }
}

/// A block list with one row.
fn map() -> Vec<u8> {
    section(b"PMAP", &words(&[1, 0x1_7070, 0x40, 16, 0, 0]))
}

/// A pack: the least data section, a block list, and more.
fn pack(more: &[u8]) -> Vec<u8> {
    [section(b"PSIN", &[0; 8]), map(), more.to_vec()].concat()
}

/// 3.2 MB of block lists with one row each.
fn maps(size: &Size) -> Vec<u8> {
    pack(&map().repeat(size.of(100_000) as usize))
}

/// 3.2 MB of sections without content.
fn sections(size: &Size) -> Vec<u8> {
    pack(&section(b"STRF", &[]).repeat(size.of(400_000) as usize))
}

/// One structure with as many members as there can be, under many names.
fn shared(size: &Size) -> Vec<u8> {
    let names: Vec<(u32, usize)> = (0..size.names()).map(|n| (0x1000 + n, 0)).collect();
    schema(&names, &[structure(4, &vec![[0x41, 0x0600_0000, 0]; size.members() as usize])])
}

/// Structures that start 12 bytes behind one another: each member is the head of a structure too.
fn staggered(size: &Size) -> Vec<u8> {
    let (names, members) = (size.names(), size.members());
    let index: Vec<(u32, u32)> = (0..names).map(|n| (0x1000 + n, 12 + 8 * names + 12 * n)).collect();
    index_section(&index, &words(&[members, 0x0600_0000, 0]).repeat((names + members) as usize))
}

/// Enums that start 8 bytes behind one another.
fn staggered_enums(size: &Size) -> Vec<u8> {
    let (names, members) = (size.names(), size.members());
    let index: Vec<(u32, u32)> = (0..names).map(|n| (0x1000 + n, 12 + 8 * names + 8 * n)).collect();
    index_section(&index, &words(&[1 << 24 | members, 7]).repeat((names + members) as usize))
}

/// An index as long as a file of 3.2 MB can have: one name, one place.
fn index(size: &Size) -> Vec<u8> {
    index_section(&vec![(0x40, 12); size.of(400_000) as usize], &[])
}

/// A Struct 0x40 whose member 0x41 is an Array of so many rows.
fn list(n: u32, item: &[u8]) -> Vec<u8> {
    [words(&[n + 2]), row(21, 0, [0x40, 1, 1, 0]), row(19, 0x41, [2, n, 0, 0]), item.repeat(n as usize)].concat()
}

/// A pack of blocks, by name and bytes, the last of them the root's.
fn packed(blocks: &[(u32, Vec<u8>)], psch: &[u8]) -> Vec<u8> {
    let (mut data, mut rows) = (vec![0; 8], Vec::new());
    for (name, bytes) in blocks {
        rows.extend(words(&[*name, data.len() as u32 + 8, 0, bytes.len() as u32]));
        data.extend(bytes);
    }
    let head = words(&[blocks.len() as u32, (blocks.len() as u32) << 16 | 0x7070]);
    [section(b"PSIN", &data), section(b"PMAP", &[head, rows].concat()), psch.to_vec()].concat()
}

/// A pack of a root alone.
fn alone(psch: &[u8]) -> Vec<u8> {
    packed(&[(0x40, vec![0; 16])], psch)
}

/// A sheet of n Structs 0x50 in an array.
fn structs(n: u32) -> Vec<u8> {
    list(n, &row(21, 0, [0x50, n + 2, 0, 0]))
}

/// Members that are arrays by pointer of pointers to structures 0x50.
fn root(members: u32) -> Vec<u8> {
    let array = vec![[0x41, 0x0D00_0000, 0]; members as usize];
    structure(16, &[vec![[0x100, 0x0C03_0000, 0x50]], array].concat())
}

/// Members over one run of pointers, which all lead nowhere or all to the first structure.
fn over_run(members: u32, elements: u32, pointer: u32) -> Vec<u8> {
    let psch = schema(&[(0x40, 0), (0x50, 1)], &[root(members), structure(4, &[])]);
    let top = words(&[2, 0, elements << 16 | elements, 0]);
    packed(&[(0x50, vec![0; 4]), (12, words(&[pointer, 0]).repeat(elements as usize)), (0x40, top)], &psch)
}

/// A pack in which 16,000 pointers lead nowhere.
fn faults(n: u32) -> Vec<u8> {
    let top = words(&[2, 0, n << 16 | n, 0]);
    let psch = schema(&[(0x40, 0), (0x50, 1)], &[root(1), structure(4, &[])]);
    packed(&[(0x50, vec![0; 4 * n as usize]), (12, words(&[0xFFFF_FFFF, 0]).repeat(n as usize)), (0x40, top)], &psch)
}

/// Members of one name and type.
fn equal(name: u32, kind: u32, reference: u32, n: u32) -> Vec<[u32; 3]> {
    vec![[name, kind, reference]; n as usize]
}

/// Flag sets that are one Array of numbers: nothing of it is charged.
fn flags(size: &Size) -> Vec<u8> {
    alone(&schema(&[(0x40, 0)], &[structure(16, &equal(0x41, 0x0F00_0000, 0, size.members()))]))
}

/// Vectors that are one text: all its parts are read for each.
fn parts(n: u32) -> Vec<u8> {
    alone(&schema(&[(0x40, 0)], &[structure(16, &equal(0x41, 0x0800_0000, 0, n))]))
}

/// Structures of many names, each with members that are not supported: each one a remark.
fn remarks(size: &Size) -> Vec<u8> {
    let types: Vec<[u32; 3]> = (0..size.members()).map(|n| [0x1_0000 + n, 0x1100_0000, 0]).collect();
    let names = (0..size.names()).map(|n| (0x1000 + n, 1));
    alone(&schema(&[(0x40, 0)].into_iter().chain(names).collect::<Vec<_>>(), &[root(1), structure(4, &types)]))
}

/// Structs of these types.
fn types(size: &Size) -> Vec<u8> {
    let n = size.names();
    let rows: Vec<u8> = (0..n).flat_map(|k| row(21, 0, [0x1000 + k, n + 2, 0, 0])).collect();
    [words(&[n + 2]), row(21, 0, [0x40, 1, 1, 0]), row(19, 0x41, [2, n, 0, 0]), rows].concat()
}

/// Structures inline in one another, one more than there may be. The charge has room for all but the last.
fn deep() -> (Vec<u8>, Vec<u8>) {
    let name = |depth: u32| if depth == 1 { 0x40 } else { 0x200 + depth };
    let size = 4_194_304 / 32 - 16;
    let inline = (1..33).map(|d| structure(size, &[[0x41, 0x0C00_0000, name(d + 1)]]));
    let bodies: Vec<Vec<u8>> = inline.chain([structure(size, &[])]).collect();
    let names: Vec<(u32, usize)> = (1..34).map(name).zip(0..).collect();
    let rows = (2..34).flat_map(|d| row(21, 0x41, [0x200 + d, d, u32::from(d < 33), 0]));
    let sheet: Vec<u8> = words(&[33]).into_iter().chain(row(21, 0, [0x40, 1, 1, 0])).chain(rows).collect();
    (sheet, alone(&schema(&names, &bodies)))
}

/// What the library looks for from the front, many times: a member among a Struct's children, a definition in the index,
/// behind sections, an entry among an enum's, a remark among others.
fn looks() -> Vec<(&'static str, Vec<u8>)> {
    let inline = structure(16, &equal(0x41, 0x0C00_0000, 0x50, 500));
    let numbers = structure(4, &equal(0x51, 0x0600_0000, 0, MEMBERS));
    let others: Vec<(u32, usize)> = (0..400_000).map(|n| (0x10_0000 + n, 1)).collect();
    let lacking = structure(16, &equal(0x41, 0x0C00_0000, 0x99, MEMBERS));
    let enums = structure(16, &equal(0x41, 0x0E00_0000, 0x99, MEMBERS));
    let words_of = structure(16, &[[0x100, 0x0600_0000, 0x70], [0x41, 0x0F00_0000, 0]]);
    let entries = [words(&[1 << 24 | 170_000]), words(&[0x1000_0000, 1]).repeat(169_999), words(&[0xCA2E_9442, 1])];
    let first: Vec<[u32; 3]> = (0..1_022).map(|n| [0x1_0000 + n, 0x1100_0000, 0]).collect();
    let noted = structure(4, &[first, equal(0x2_0000, 0x1100_0000, 0, 64_000)].concat());
    let one = |body: Vec<u8>| schema(&[(0x40, 0)], &[body]);
    let two = |name: u32, bodies: [Vec<u8>; 2]| schema(&[(0x40, 0), (name, 1)], &bodies);
    vec![
        ("children", alone(&two(0x50, [inline.clone(), numbers]))),
        ("lacking", alone(&schema(&[vec![(0x40, 0)], others].concat(), &[lacking, structure(4, &[])]))),
        ("behind", [alone(&one(enums)), section(b"STRF", &[]).repeat(400_000)].concat()),
        ("entries", alone(&two(0x70, [words_of, entries.concat()]))),
        ("noted", alone(&two(0x50, [inline, noted]))),
        (
            "children.sheet",
            [
                words(&[16_002]),
                row(21, 0, [0x40, 1, 1, 0]),
                row(21, 0x41, [0x50, 2, 16_000, 0]),
                row(7, 0x60, [1, 0, 0, 0]).repeat(16_000),
            ]
            .concat(),
        ),
        (
            "entries.sheet",
            [words(&[2]), row(21, 0, [0x40, 1, 1, 0]), row(15, 0x41, [0, 65_534, 0, 0]), b"a,".repeat(32_767)].concat(),
        ),
        ("one.sheet", [words(&[2]), row(21, 0, [0x40, 1, 1, 0]), row(21, 0x41, [0x50, 2, 0, 0])].concat()),
    ]
}

/// What the library passes over many times: members that are descriptors, names of used structures, the whole scene for
/// each 1,024 remarks.
fn repeats() -> Vec<(&'static str, Vec<u8>)> {
    let infos = structure(0, &equal(0x100, 0, 0, MEMBERS));
    let others = 0x1000..0x1000 + 20_000;
    let inline: Vec<[u32; 3]> = others.clone().map(|name| [0x60, 0x0C00_0000, name]).collect();
    let runs = [vec![[0x100, 0x0C00_0000, 0x50]], inline, equal(0x41, 0x0D00_0000, 0, 16)].concat();
    let names: Vec<(u32, usize)> = [(0x40, 0), (0x50, 1)].into_iter().chain(others.map(|name| (name, 1))).collect();
    let remarked: Vec<[u32; 3]> = (0..1_025).map(|n| [0x1_0000 + n, 0x1100_0000, 0]).collect();
    let rounds = [equal(0x42, 0x0C00_0000, 0x50, 20), equal(0x41, 0x0F00_0000, 0, 400)].concat();
    let two = |bodies: [Vec<u8>; 2]| alone(&schema(&[(0x40, 0), (0x50, 1)], &bodies));
    let numbers = row(7, 0, [1, 0, 0, 0]).repeat(16_000);
    let children = [row(19, 0x41, [3, 16_000, 0, 0]), row(21, 0x42, [0x50, 16_003, 0, 0])];
    vec![
        ("infos", two([root(65_000), infos])),
        ("used", alone(&schema(&names, &[structure(16, &runs), structure(0, &[])]))),
        ("rounds", two([structure(16, &rounds), structure(4, &remarked)])),
        ("parts", parts(MEMBERS)),
        ("fewer_parts", parts(2_600)),
        (
            "parts.sheet",
            [words(&[2]), row(21, 0, [0x40, 1, 1, 0]), row(15, 0x41, [0, 65_534, 0, 0]), b"1,".repeat(32_767)].concat(),
        ),
        ("rounds.sheet", [words(&[16_003]), row(21, 0, [0x40, 1, 2, 0]), children.concat(), numbers].concat()),
    ]
}

fn main() {
    let mut arguments = env::args().skip(1);
    let directory = arguments.next().expect("a directory");
    let size = Size(arguments.next().map_or(1, |part| part.parse().expect("a number")));
    let (deep_sheet, deep_pack) = deep();
    let n = size.of(16_000);
    let mut shapes = vec![
        ("maps", maps(&size)),
        ("sections", sections(&size)),
        ("shared", pack(&shared(&size))),
        ("shared.schema", shared(&size)),
        ("staggered", pack(&staggered(&size))),
        ("staggered.schema", staggered(&size)),
        ("enums.schema", staggered_enums(&size)),
        ("index.schema", index(&size)),
        ("many.sheet", structs(n)),
        ("few.sheet", structs(2)),
        ("first.sheet", [words(&[1]), row(21, 0, [0x1000, 1, 0, 0])].concat()),
        ("numbers.sheet", list(n, &row(7, 0, [1, 0, 0, 0]))),
        ("types.sheet", types(&size)),
        ("nowhere", over_run(size.of(2_000), size.members(), 0xFFFF_FFFF)),
        ("members", over_run(size.of(65_000), size.members(), 1)),
        ("faults", faults(n)),
        ("flags", flags(&size)),
        ("remarks", remarks(&size)),
        ("deep", deep_pack),
        ("deep.sheet", deep_sheet),
    ];
    if size.0 == 1 {
        shapes.extend(looks());
        shapes.extend(repeats());
    }
    for (name, bytes) in shapes {
        fs::write(Path::new(&directory).join(name), bytes).expect("a file");
    }
}
