//! JSON: its layout, and lists that are written while they are made.
use serde::{Serialize, Serializer};
use serde_json::ser::Formatter;
use std::io::{self, Write};

/// The outer object and its lists in lines, each item of a list on one line.
struct Lines {
    depth: usize,
    filled: bool,
}

/// The outer object has depth 1, a list in it depth 2.
const OBJECT: usize = 1;
const LIST: usize = 2;

impl Lines {
    fn begin<W: Write + ?Sized>(&mut self, out: &mut W, sign: &[u8]) -> io::Result<()> {
        self.depth += 1;
        self.filled = false;
        out.write_all(sign)
    }

    /// Before an item: a comma, and a new line where the depth has its items in lines.
    fn item<W: Write + ?Sized>(&mut self, out: &mut W, first: bool, in_lines: usize) -> io::Result<()> {
        match (first, self.depth == in_lines) {
            (true, false) => Ok(()),
            (false, false) => out.write_all(b", "),
            (first, true) => write!(out, "{}\n{:2$}", if first { "" } else { "," }, "", 2 * self.depth),
        }
    }

    fn end<W: Write + ?Sized>(&mut self, out: &mut W, sign: &[u8], in_lines: usize) -> io::Result<()> {
        if self.filled && self.depth == in_lines {
            write!(out, "\n{:1$}", "", 2 * self.depth - 2)?;
        }
        self.depth -= 1;
        self.filled = true;
        out.write_all(sign)
    }
}

impl Formatter for Lines {
    fn begin_array<W: Write + ?Sized>(&mut self, out: &mut W) -> io::Result<()> {
        self.begin(out, b"[")
    }

    fn end_array<W: Write + ?Sized>(&mut self, out: &mut W) -> io::Result<()> {
        self.end(out, b"]", LIST)
    }

    fn begin_array_value<W: Write + ?Sized>(&mut self, out: &mut W, first: bool) -> io::Result<()> {
        self.item(out, first, LIST)
    }

    fn end_array_value<W: Write + ?Sized>(&mut self, _: &mut W) -> io::Result<()> {
        self.filled = true;
        Ok(())
    }

    fn begin_object<W: Write + ?Sized>(&mut self, out: &mut W) -> io::Result<()> {
        self.begin(out, b"{")
    }

    fn end_object<W: Write + ?Sized>(&mut self, out: &mut W) -> io::Result<()> {
        self.end(out, b"}", OBJECT)
    }

    fn begin_object_key<W: Write + ?Sized>(&mut self, out: &mut W, first: bool) -> io::Result<()> {
        self.item(out, first, OBJECT)
    }

    fn begin_object_value<W: Write + ?Sized>(&mut self, out: &mut W) -> io::Result<()> {
        out.write_all(b": ")
    }

    fn end_object_value<W: Write + ?Sized>(&mut self, _: &mut W) -> io::Result<()> {
        self.filled = true;
        Ok(())
    }
}

fn write_from(depth: usize, value: &impl Serialize, out: &mut impl Write) -> io::Result<()> {
    let layout = Lines { depth, filled: false };
    value.serialize(&mut serde_json::Serializer::with_formatter(out, layout)).map_err(io::Error::from)
}

/// Writes an object, with a line end.
pub fn write(value: &impl Serialize, out: &mut impl Write) -> io::Result<()> {
    write_from(0, value, out)?;
    out.write_all(b"\n")
}

/// Writes an item of a list on one line.
pub fn write_item(value: &impl Serialize, out: &mut impl Write) -> io::Result<()> {
    write_from(LIST, value, out)
}

/// A list by what makes its items: they are written one after the other and not kept.
pub struct List<F>(pub F);

impl<I: Iterator<Item = T>, T: Serialize, F: Fn() -> I> Serialize for List<F> {
    fn serialize<S: Serializer>(&self, serializer: S) -> Result<S::Ok, S::Error> {
        serializer.collect_seq((self.0)())
    }
}
