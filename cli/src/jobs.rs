//! Which sheet goes where. Wrong use is told before anything is read or written.
use crate::arguments::Pack;
use crate::{files, Stop};
use std::collections::HashMap;
use std::ffi::{OsStr, OsString};
use std::io::IsTerminal;
use std::path::Path;

pub struct Job<'a> {
    pub sheet: &'a OsStr,
    pub out: OsString,
}

/// The sheet's name with .pso; the standard output for the standard input.
fn out_name(o: &Pack, sheet: &OsStr) -> OsString {
    match &o.out {
        Some(name) => name.clone(),
        None if sheet == "-" => "-".into(),
        None => Path::new(sheet).with_extension("pso").into_os_string(),
    }
}

/// No output is an input.
fn check_inputs(o: &Pack, jobs: &[Job]) -> Result<(), Stop> {
    let sheets = o.sheets.iter().map(|s| (s, "sheet"));
    let others = [(&o.schema, "schema file")].into_iter().chain(o.names.iter().map(|n| (n, "names file")));
    let inputs: HashMap<_, _> = sheets.chain(others).filter_map(|(f, what)| Some((files::number(f)?, what))).collect();
    for job in jobs {
        if let Some(what) = files::number(&job.out).and_then(|n| inputs.get(&n)) {
            let name = job.out.to_string_lossy();
            return Err(Stop::usage(format!("pack: {name} is the {what}; name another output with -o")));
        }
    }
    Ok(())
}

/// No two sheets have one output.
fn check_distinct(jobs: &[Job]) -> Result<(), Stop> {
    let mut places = HashMap::new();
    for job in jobs {
        if let Some(first) = places.insert(files::place(&job.out), job.sheet) {
            let (a, b) = (files::shown(first), files::shown(job.sheet));
            let out = job.out.to_string_lossy();
            return Err(Stop::usage(format!("pack: {a} and {b} would both become {out}; nothing was written")));
        }
    }
    Ok(())
}

/// The standard output takes one thing, and a screen takes no pack.
fn check_output(o: &Pack, jobs: &[Job]) -> Result<(), Stop> {
    if jobs.iter().all(|job| job.out != "-") {
        return Ok(());
    }
    if o.json {
        return Err(Stop::usage("pack: --json needs the standard output; name another output with -o"));
    }
    if std::io::stdout().is_terminal() {
        return Err(Stop::usage("pack: the standard output is a terminal; name an output with -o"));
    }
    Ok(())
}

/// Each sheet with its output.
pub fn jobs(o: &Pack) -> Result<Vec<Job<'_>>, Stop> {
    if o.out.is_some() && o.sheets.len() > 1 {
        return Err(Stop::usage(format!("pack: -o names the output of one sheet, there are {}", o.sheets.len())));
    }
    let jobs: Vec<Job> = o.sheets.iter().map(|s| Job { sheet: s, out: out_name(o, s) }).collect();
    check_inputs(o, &jobs)?;
    check_distinct(&jobs)?;
    check_output(o, &jobs)?;
    Ok(jobs)
}
