//! The standard output, and whether it and the standard input were there.
use crate::words::fault;
use crate::Stop;
use std::fs::File;
use std::io::{self, BufWriter, ErrorKind, Write};
use std::os::fd::AsFd;
use std::sync::atomic::{AtomicBool, Ordering};

const INPUT: i32 = 0;
const OUTPUT: i32 = 1;
const F_GETFD: i32 = 1;

extern "C" {
    fn fcntl(file: i32, command: i32, ...) -> i32;
}

/// Whether the program was started with a closed standard input or output.
static CLOSED: [AtomicBool; 2] = [AtomicBool::new(false), AtomicBool::new(false)];

extern "C" fn look() {
    for file in [INPUT, OUTPUT] {
        CLOSED[file as usize].store(unsafe { fcntl(file, F_GETFD) } == -1, Ordering::Relaxed);
    }
}

/// The loader calls this before Rust's runtime puts /dev/null in the place of what is closed.
#[used]
#[link_section = ".init_array"]
static LOOK: extern "C" fn() = look;

/// The standard output, or that it is closed. Written past Rust's own, which takes a file that is not for writing.
pub fn open() -> Result<BufWriter<File>, Stop> {
    if CLOSED[OUTPUT as usize].load(Ordering::Relaxed) {
        return Err(Stop::failed("standard output: it is closed"));
    }
    let file = io::stdout().as_fd().try_clone_to_owned().map_err(stop)?;
    Ok(BufWriter::new(File::from(file)))
}

/// Whether nothing can be read from the standard input, which Rust reads as an empty one.
pub fn no_input() -> bool {
    CLOSED[INPUT as usize].load(Ordering::Relaxed)
}

fn stop(e: io::Error) -> Stop {
    Stop::failed(format!("standard output: {}", fault(&e)))
}

/// What became of writing a result. A reader that went away is no fault.
pub fn written(result: io::Result<()>) -> Result<(), Stop> {
    match result {
        Err(e) if e.kind() != ErrorKind::BrokenPipe => Err(stop(e)),
        _ => Ok(()),
    }
}

/// Writes a result that is at hand.
pub fn print(text: &str) -> Result<(), Stop> {
    let mut out = open()?;
    written(out.write_all(text.as_bytes()).and_then(|()| out.flush()))
}
