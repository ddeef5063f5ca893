//! `accept`: a pack against the sheet of its scene, line by line.
use crate::arguments::Accept;
use crate::library::{self, Reading, LONGEST_PACK};
use crate::names::Names;
use crate::pointers::{follow, Pack};
use crate::progress::Progress;
use crate::rebuild::{past_refusal, rebuild, Missing, Rebuilt, Schema};
use crate::schema_check::{carries, counted, lacks, Faults};
use crate::sections::{sections, Section};
use crate::told::told;
use crate::verdict::{Finding, List};
use crate::words::{commas, count, refused};
use crate::{files, places, Stop};
use sandvurek_model::model::state::State;

/// A pack, its sheet and, where it is given, the schema file.
struct Given<'a> {
    pack: Pack<'a>,
    sheet: &'a [u8],
    schema: Option<Schema<'a>>,
    /// Whether it is said to have its root in a new last block.
    alone: bool,
    names: &'a Names,
}

impl<'a> Given<'a> {
    /// The pack's own definitions.
    fn own(&self) -> Schema<'a> {
        Schema { file: self.pack.file, whose: "the pack" }
    }

    fn rebuild(&self, schema: Schema) -> Result<Rebuilt, Missing> {
        rebuild(self.alone, self.sheet, schema, self.names)
    }

    /// What the other way of packing gives, where it is as long as the pack. Where the ways differ, that with the root
    /// alone has a row more in the block list, or is refused for its block or its length.
    fn other_way(&self, schema: Schema, built: &Result<Vec<u8>, Missing>) -> Option<Vec<u8>> {
        let has = self.pack.file.len();
        let likely = match built {
            Ok(file) if self.alone => file.len() == has + ROW,
            Ok(file) => has == file.len() + ROW,
            Err(why) => matches!(why, Missing::Refused(10 | 13, _)),
        };
        let other = likely.then(|| rebuild(!self.alone, self.sheet, schema, self.names))?.ok()?;
        (other.file.len() == has).then_some(other.file)
    }

    /// What the other way does with the root, and how it is asked for.
    fn advice(&self) -> &'static str {
        match self.alone {
            false => "its root in a block of its own: give --root-alone",
            true => "its root in a block with other items: leave out --root-alone",
        }
    }
}

/// A row of the block list.
const ROW: usize = 16;

const SECTIONS: &str = "sections end to end";
const BLOCKS: &str = "block list against the data";

/// The three sections of a pack, in their order, from the first byte to the last.
fn end_to_end(file: &[u8]) -> Finding {
    let found: Vec<Section> = sections(file).take(4).collect();
    for (k, name) in [b"PSIN", b"PMAP", b"PSCH"].into_iter().enumerate() {
        let due = String::from_utf8_lossy(name);
        match found.get(k) {
            Some(s) if s.is(name) => {}
            Some(s) => {
                return Finding::Fail(format!("section {} at byte {} is {}, {due} is due", k + 1, s.at, s.shown()))
            }
            None => return Finding::Fail(format!("{due} is missing")),
        }
    }
    if let Some(s) = found.get(3) {
        return Finding::Fail(format!("a fourth section, {}, at byte {}", s.shown(), s.at));
    }
    let end: usize = found.iter().map(|s| s.length).sum();
    if end != file.len() {
        let behind = count((file.len() - end) as u64, "byte");
        return Finding::Fail(format!("{behind} behind the last section, at byte {end}"));
    }
    let lengths: Vec<String> = found.iter().map(|s| format!("{} {}", s.shown(), commas(s.length as u64))).collect();
    Finding::Pass(format!("{} bytes", lengths.join(", ")))
}

/// Block 1 starts at byte 16, each further one where the one before ends, the last ends with the data.
fn block_list(pack: &Pack) -> Finding {
    let (root, blocks) = (pack.reading.root as usize, pack.blocks.len());
    let mut due = 16u64;
    for (k, b) in pack.blocks.iter().enumerate() {
        if b.place as u64 != due {
            return Finding::Fail(format!("block {} of name 0x{:X} is at {}, {due} is due", k + 1, b.name, b.place));
        }
        due += b.length as u64;
    }
    if due != pack.reading.data_length as u64 {
        return Finding::Fail(format!("the last block ends at {due}, the data at {}", pack.reading.data_length));
    }
    if root == 0 || root > blocks {
        return Finding::Fail(format!("the root is block {root}, there are {blocks}"));
    }
    Finding::Pass(format!("{}, root in block {root}", count(blocks as u64, "block")))
}

/// The pointers of the pack along a scene that was laid.
fn walk(given: &Given, laid: &State, exact: bool) -> Finding {
    let mut progress = Progress::new();
    if given.pack.file.len() > files::LONG {
        progress.show("following pointers");
    }
    let walk = follow(&given.pack, laid, exact, given.names);
    let by_name = if exact { "" } else { ", by the names of their blocks alone" };
    Finding::of(format!("{}{by_name}", count(walk.pointers, "pointer")), walk.faults)
}

/// Each pointer against the pack that was rebuilt from the pack's own schema; where there is none, or definitions are
/// lacking, against the names that packing files under.
fn pointers(given: &Given, own: &Result<Rebuilt, Missing>) -> Finding {
    match own {
        Ok(built) => walk(given, &built.scene.state, built.scene.state.trace.lacks == 0),
        Err(why) => match past_refusal(given.alone, given.sheet, given.pack.file, why) {
            Some(scene) => walk(given, &scene.state, false),
            None => Finding::missing(why),
        },
    }
}

/// The pack's definitions against those that a building used.
fn definitions(given: &Given, built: &Rebuilt, schema: Schema) -> Faults {
    carries(given.pack.file, &built.file, schema.whose, &built.scene.state, given.names)
}

/// What stands at a byte of the pack.
fn standing(pack: &Pack, at: usize) -> String {
    let section = sections(pack.file).find(|s| at >= s.at && at - s.at < s.length);
    let in_data = at.checked_sub(pack.reading.data_at).filter(|p| *p < pack.reading.data_length);
    let inside = |k: &usize, p: usize| {
        let b = &pack.blocks[k - 1];
        p >= b.place as usize && p - (b.place as usize) < b.length as usize
    };
    let block = in_data.and_then(|p| (1..=pack.blocks.len()).find(|k| inside(k, p)).map(|k| (k, p)));
    match (block, section) {
        (Some((k, p)), _) => format!("in block {k}, start 0x{:X}", p - pack.blocks[k - 1].place as usize),
        (None, Some(s)) => format!("in {}, byte {} of it", s.shown(), at - s.at),
        (None, None) => "behind the last section".into(),
    }
}

/// The pack and what was built with a schema are the same bytes; where they are not, whether the other way gives the pack,
/// or one as long.
fn rebuilt(given: &Given, schema: Schema, built: Result<Rebuilt, Missing>) -> Finding {
    let built = built.map(|b| b.file);
    let other = given.other_way(schema, &built);
    if other.as_ref().is_some_and(|other| other == given.pack.file) {
        return Finding::Fail(format!("the pack was built the other way, {}", given.advice()));
    }
    let finding = match built {
        Ok(built) => same_bytes(&given.pack, &built),
        Err(why) => Finding::missing(&why),
    };
    match finding {
        Finding::Fail(text) if other.is_some() => {
            Finding::Fail(format!("{text}; one that was built the other way is as long, {}", given.advice()))
        }
        finding => finding,
    }
}

/// The pack and what was built are the same bytes.
fn same_bytes(pack: &Pack, built: &[u8]) -> Finding {
    let file = pack.file;
    if let Some(at) = file.iter().zip(built).position(|(x, y)| x != y) {
        let (has, due) = (file[at], built[at]);
        return Finding::Fail(format!("byte {at}, {}, is 0x{has:02X}, 0x{due:02X} is due", standing(pack, at)));
    }
    if file.len() != built.len() {
        let (has, due) = (commas(file.len() as u64), commas(built.len() as u64));
        return Finding::Fail(format!("the pack has {has} bytes, {due} are due"));
    }
    Finding::Pass(format!("the same {}", count(built.len() as u64, "byte")))
}

const POINTERS: &str = "pointers followed";
const SCHEMA: &str = "schema against scene";
const OWN: &str = "rebuild from the pack's own schema";
const THEIRS: &str = "rebuild from the schema file";

/// The checks that need the scene, along the pack that the schema file gives. A layout is long, so one is there at a
/// time.
fn with_schema(given: &Given, built: Rebuilt, schema: Schema, list: &mut List) {
    list.add(POINTERS, walk(given, &built.scene.state, true));
    list.add(SCHEMA, Finding::of(counted(given.pack.file), definitions(given, &built, schema)));
    list.remarks = told(&built.remarks, Some(&built.scene), given.names);
    let theirs = rebuilt(given, schema, Ok(built));
    list.add(OWN, rebuilt(given, given.own(), given.rebuild(given.own())));
    list.add(THEIRS, theirs);
}

/// The same along the pack's own rebuild; with why nothing was built with the schema file, where one is given.
fn without_schema(given: &Given, theirs: Option<(Schema, Missing)>, list: &mut List) {
    let own = given.rebuild(given.own());
    list.add(POINTERS, pointers(given, &own));
    let finding = match (&theirs, &own) {
        (Some((_, why)), _) | (None, Err(why)) => Finding::missing(why),
        (None, Ok(built)) => {
            let mut faults = lacks(&built.scene.state, given.names);
            faults.join(definitions(given, built, given.own()));
            Finding::of(counted(given.pack.file), faults)
        }
    };
    list.add(SCHEMA, finding);
    if let Ok(built) = &own {
        list.remarks = told(&built.remarks, Some(&built.scene), given.names);
    }
    list.add(OWN, rebuilt(given, given.own(), own));
    if let Some((schema, why)) = theirs {
        list.add(THEIRS, rebuilt(given, schema, Err(why)));
    }
}

/// The checks of a pack that the reader accepts.
fn check(given: &Given, list: &mut List) {
    list.add(SECTIONS, end_to_end(given.pack.file));
    list.add(BLOCKS, block_list(&given.pack));
    let theirs = given.schema.map(|s| (s, given.rebuild(s)));
    match theirs {
        Some((schema, Ok(built))) => with_schema(given, built, schema, list),
        Some((schema, Err(why))) => without_schema(given, Some((schema, why)), list),
        None => without_schema(given, None, list),
    }
}

/// A file that the reader refuses fails the line that its refusal is about.
fn refuse(file: &[u8], code: u32, refusal: String, list: &mut List) {
    let check = match code {
        16 => BLOCKS,
        5 | 6 => SCHEMA,
        _ => SECTIONS,
    };
    if check != SECTIONS {
        list.add(SECTIONS, end_to_end(file));
    }
    list.end(check, refusal);
}

/// The checks of any file.
fn check_file(file: &[u8], given: impl FnOnce(Reading) -> List) -> List {
    let mut list = List::default();
    let reading = library::read(file);
    if reading.code != 0 {
        let place = places::of_read(reading.code, file);
        refuse(file, reading.code, refused(reading.code, place.as_deref()), &mut list);
    } else if file.len() > LONGEST_PACK {
        let (has, most) = (commas(file.len() as u64), commas(LONGEST_PACK as u64));
        list.end(SECTIONS, format!("{has} bytes, no pack has more than {most}"));
    } else {
        return given(reading);
    }
    list
}

pub fn run(o: &Accept) -> Result<u8, Stop> {
    let file = files::read_file(&o.pack).map_err(Stop::unchecked)?;
    let sheet = files::read_sheet(&o.sheet).map_err(Stop::unchecked)?;
    let schema = o.schema.as_ref().map(|s| files::read_file(s)).transpose().map_err(Stop::unchecked)?;
    let names = Names::of(o.names.as_deref()).map_err(Stop::unchecked)?;
    let schema = schema.as_deref().map(|file| Schema { file, whose: "the schema file" });
    let list = check_file(&file, |reading| {
        let mut list = List::default();
        let given =
            Given { pack: Pack::of(&file, &reading), sheet: &sheet, schema, alone: o.root_alone, names: &names };
        check(&given, &mut list);
        list
    });
    // A verdict that nobody reads is none.
    list.print(o).map_err(Stop::unchecked)?;
    Ok(list.status())
}
