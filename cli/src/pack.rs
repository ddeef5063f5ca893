//! `pack`: sheets and a schema file become packs.
use crate::arguments::Pack;
use crate::jobs::{jobs, Job};
use crate::library::{self, Lent, LARGEST_CHARGE, LEAST_WORK, LONGEST_PACK};
use crate::names::Names;
use crate::notes::noted;
use crate::report::{Report, Reports};
use crate::scene::{self, Lost, Scene};
use crate::sections::index_entries;
use crate::told::told;
use crate::words::{commas, count, fault, refused};
use crate::{files, places, Stop, DONE, FAILED};

/// The shortest work area for a schema file, and the longest that is of use.
pub fn work_lengths(schema: &[u8]) -> (usize, usize) {
    let least = LEAST_WORK + 8 * index_entries(schema);
    (least, least + 4 * LARGEST_CHARGE)
}

/// What all sheets of a call share.
struct Packing<'a> {
    o: &'a Pack,
    schema: Vec<u8>,
    names: Names,
    least: usize,
    most: usize,
    work: usize,
}

/// Why there is no pack: the refusal's number where the library refused, and the message.
struct Failure {
    code: Option<u32>,
    message: String,
}

impl From<Stop> for Failure {
    fn from(stop: Stop) -> Failure {
        Failure { code: None, message: stop.message }
    }
}

fn failure<T>(message: String) -> Result<T, Failure> {
    Err(Failure { code: None, message })
}

impl<'a> Packing<'a> {
    fn of(o: &'a Pack) -> Result<Packing<'a>, Stop> {
        let names = Names::of(o.names.as_deref())?;
        let schema = files::read_file(&o.schema)?;
        let (least, most) = work_lengths(&schema);
        let work = o.work.map_or(most, |w| w.min(most));
        Ok(Packing { o, schema, names, least, most, work })
    }

    /// What can be done about a refusal.
    fn advice(&self, code: u32) -> Option<String> {
        match code {
            9 if self.work < self.most => Some(format!("--work gives more room, {} is the most", self.most)),
            9 => Some("the scene is too large for one pack".into()),
            11 => Some("write it with nine digits at most and no exponent, or give a number".into()),
            12 => Some(format!("--work must be {} or more", self.least)),
            14 => Some(format!("there are {} records; use --records with more", commas(self.o.records as u64))),
            _ => None,
        }
    }

    /// The refusal's line, with the file that it comes from and what can be said of its place.
    fn refusal(&self, job: &Job, code: u32, sheet: &[u8], scene: Option<&Scene>) -> String {
        let schema = files::shown(&self.o.schema);
        let file = if (4..=6).contains(&code) { schema.clone() } else { files::shown(job.sheet) };
        let place = places::of_build(code, sheet, &self.schema, scene, &self.names);
        let definitions = || format!("{schema} has {}", count(index_entries(&self.schema) as u64, "definition"));
        let more = if code == 7 { Some(definitions()) } else { self.advice(code) };
        let known: Vec<String> = place.into_iter().chain(more).collect();
        format!("{file}: {}", refused(code, Some(known.join("; ").as_str()).filter(|text| !text.is_empty())))
    }

    /// The scene, where it can be followed. One that takes too many steps is a failure, unless there is no limit.
    fn followed(&self, job: &Job, sheet: &[u8], most: Lent) -> Result<Option<Scene>, Failure> {
        if library::is_refused_early(sheet, &self.schema) {
            return Ok(None);
        }
        let scene = match Scene::of(self.o.root_alone, sheet, &self.schema, most) {
            Ok(scene) if scene.is_light() => return Ok(Some(scene)),
            Err(Lost::Refused) => return Ok(None),
            scene => scene.ok(),
        };
        if self.o.no_limit {
            return Ok(scene);
        }
        let (sheet, schema) = (files::shown(job.sheet), files::shown(&self.o.schema));
        failure(format!("{sheet}: packing it with {schema} takes too many steps; --no-limit packs it all the same"))
    }

    /// Packs one sheet; the report gets what is known of it.
    fn pack(&self, job: &Job, report: &mut Report) -> Result<(), Failure> {
        let sheet = files::read_sheet(job.sheet)?;
        let target = files::target(&job.out)?;
        let most = Lent { work: self.work, out: LONGEST_PACK, records: self.o.records };
        let scene = self.followed(job, &sheet, most)?;
        let built = scene::build(self.o.root_alone, &sheet, &self.schema, scene.as_ref(), most)
            .map_err(|why| Stop::failed(format!("{}: {why}", report.sheet)))?;
        if built.code != 0 {
            let message = self.refusal(job, built.code, &sheet, scene.as_ref());
            return Err(Failure { code: Some(built.code), message });
        }
        report.remarks = told(&built.remarks, scene.as_ref(), &self.names);
        report.notes = noted(scene.as_ref(), &self.names);
        if self.o.strict && !report.remarks.is_empty() {
            let remarks = count(report.remarks.len() as u64, "remark");
            return failure(format!("{}: {remarks}, and --strict: the pack was not written", report.sheet));
        }
        if let Err(e) = target.write(&built.file) {
            return failure(format!("{}: {}; the pack was not written", report.pack, fault(&e)));
        }
        report.packed(&built);
        Ok(())
    }
}

pub fn run(o: &Pack) -> Result<u8, Stop> {
    let jobs = jobs(o)?;
    let packing = Packing::of(o)?;
    let mut reports = Reports::open(o.quiet, o.json)?;
    let mut status = DONE;
    for job in &jobs {
        let mut report = Report::of(files::shown(job.sheet), files::shown_out(&job.out), o.root_alone);
        if let Err(failure) = packing.pack(job, &mut report) {
            (report.code, report.message) = (failure.code, Some(failure.message));
            status = FAILED;
        }
        reports.add(&report);
    }
    reports.end()?;
    Ok(status)
}
