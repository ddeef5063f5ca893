//! Files in and out. A pack replaces an old one only when it is whole.
use crate::progress::Progress;
use crate::words::{commas, fault};
use crate::{output, Stop};
use std::ffi::OsStr;
use std::fs::{self, File, OpenOptions, Permissions};
use std::io::{self, BufWriter, ErrorKind, Read, Write};
use std::os::unix::fs::MetadataExt;
use std::path::{Path, PathBuf};

/// The longest sheet: 16,384 rows and 65,535 bytes of text.
pub const LONGEST_SHEET: usize = 4 + 24 * 16_384 + 65_535;
/// Schema files and packs above this are not read.
pub const LONGEST_FILE: usize = 268_435_456;
/// Above this a file takes long enough for a line about it.
pub const LONG: usize = 4 << 20;
const STEP: usize = 1 << 20;

/// A file's name in messages.
pub fn shown(path: &OsStr) -> String {
    named(path, "standard input")
}

/// An output's name in messages.
pub fn shown_out(path: &OsStr) -> String {
    named(path, "standard output")
}

fn named(path: &OsStr, stream: &str) -> String {
    if path == "-" {
        stream.into()
    } else {
        path.to_string_lossy().into_owned()
    }
}

/// At most `limit` bytes of a stream.
fn take(from: &mut dyn Read, name: &str, limit: usize) -> io::Result<Vec<u8>> {
    let mut progress = Progress::new();
    let mut bytes = Vec::new();
    loop {
        let step = STEP.min(limit - bytes.len());
        if step == 0 || from.take(step as u64).read_to_end(&mut bytes)? == 0 {
            return Ok(bytes);
        }
        if bytes.len() > LONG {
            progress.show(&format!("reading {name}: {} MB", bytes.len() >> 20));
        }
    }
}

fn open_and_take(path: &OsStr, limit: usize) -> Result<Vec<u8>, Stop> {
    let name = shown(path);
    let bytes = if path == "-" && output::no_input() {
        return Err(Stop::failed(format!("{name}: it is closed")));
    } else if path == "-" {
        take(&mut io::stdin().lock(), &name, limit)
    } else {
        File::open(path).and_then(|mut file| take(&mut file, &name, limit))
    };
    bytes.map_err(|e| Stop::failed(format!("{name}: {}", fault(&e))))
}

/// A sheet. Of one that is too long, one byte too many: it is refused like the whole.
pub fn read_sheet(path: &OsStr) -> Result<Vec<u8>, Stop> {
    open_and_take(path, LONGEST_SHEET + 1)
}

/// A schema file or a pack.
pub fn read_file(path: &OsStr) -> Result<Vec<u8>, Stop> {
    let bytes = open_and_take(path, LONGEST_FILE + 1)?;
    if bytes.len() > LONGEST_FILE {
        let most = commas(LONGEST_FILE as u64);
        return Err(Stop::failed(format!("{}: longer than {most} bytes, the most that is read", shown(path))));
    }
    Ok(bytes)
}

/// What tells a file from others, where it is there.
pub fn number(path: &OsStr) -> Option<(u64, u64)> {
    let found = fs::metadata(path).ok().filter(|_| path != "-")?;
    Some((found.dev(), found.ino()))
}

/// A file's place without links, also of one that is not there yet.
pub fn place(path: &OsStr) -> PathBuf {
    let path = Path::new(path);
    let new = || Some(fs::canonicalize(directory(path)).ok()?.join(path.file_name()?));
    fs::canonicalize(path).ok().or_else(new).unwrap_or_else(|| path.into())
}

/// The directory that a file is in.
fn directory(path: &Path) -> &Path {
    match path.parent() {
        Some(p) if !p.as_os_str().is_empty() => p,
        _ => Path::new("."),
    }
}

/// Where a pack goes.
pub enum Target {
    Output(BufWriter<File>),
    /// A device or a pipe, which has no old content.
    Stream(PathBuf),
    /// A file that is there or not yet, with the rights of the old one.
    File(PathBuf, Option<Permissions>),
}

/// Looks at the target before anything is built.
pub fn target(path: &OsStr) -> Result<Target, Stop> {
    let stop = |reason: &str| Stop::failed(format!("{}: {reason}", path.to_string_lossy()));
    let named = |e: io::Error| stop(&fault(&e));
    if path == "-" {
        return output::open().map(Target::Output);
    }
    let old = match fs::metadata(path) {
        Err(e) if e.kind() == ErrorKind::NotFound => {
            if fs::symlink_metadata(path).is_ok() {
                return Err(stop("a link that leads to no file"));
            }
            return Ok(Target::File(path.into(), None));
        }
        found => found.map_err(named)?,
    };
    if old.is_dir() {
        return Err(stop("is a directory"));
    }
    if !old.is_file() {
        return Ok(Target::Stream(path.into()));
    }
    if old.permissions().readonly() {
        return Err(stop("the file is there and is read-only; it was left as it is"));
    }
    OpenOptions::new().write(true).open(path).map_err(named)?;
    Ok(Target::File(fs::canonicalize(path).map_err(named)?, Some(old.permissions())))
}

impl Target {
    /// Writes a pack. Where that fails an old file is what it was.
    pub fn write(self, bytes: &[u8]) -> io::Result<()> {
        match self {
            Target::Output(mut out) => out.write_all(bytes).and_then(|()| out.flush()),
            Target::Stream(path) => OpenOptions::new().write(true).open(path)?.write_all(bytes),
            Target::File(path, rights) => replace(&path, rights.as_ref(), bytes),
        }
    }
}

/// A new file in a directory, under a name that nobody has.
fn temporary(directory: &Path) -> io::Result<(PathBuf, File)> {
    let mut tries = 0;
    loop {
        let path = directory.join(format!(".sandvurek-{}-{tries}.tmp", std::process::id()));
        match OpenOptions::new().write(true).create_new(true).open(&path) {
            Err(e) if e.kind() == ErrorKind::AlreadyExists && tries < 1_000 => tries += 1,
            opened => return opened.map(|file| (path, file)),
        }
    }
}

/// Writes a file beside the target, whole and on disk, then gives it the target's name.
fn replace(target: &Path, rights: Option<&Permissions>, bytes: &[u8]) -> io::Result<()> {
    let directory = directory(target);
    let (path, mut file) = temporary(directory)?;
    let done = file
        .write_all(bytes)
        .and_then(|()| rights.map_or(Ok(()), |r| file.set_permissions(r.clone())))
        .and_then(|()| file.sync_all())
        .and_then(|()| fs::rename(&path, target));
    if done.is_err() {
        let _ = fs::remove_file(&path);
        return done;
    }
    // The new name reaches the disk too, where the system can be asked for that.
    let _ = File::open(directory).and_then(|d| d.sync_all());
    Ok(())
}
