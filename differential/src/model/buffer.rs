//! The bytes of a structure or a run while it is made, and where pointers were put in it.
use crate::bytes::{put_u16, put_u32};

/// Where a pointer leads: to an item, by its number in order of laying, or nowhere, by the number of what was empty.
#[derive(Clone, Copy, Debug, PartialEq)]
pub enum Leads {
    Item(u32),
    Nowhere(u32),
}

/// Where a pointer was put or left zero, and whether a count stands 8 bytes behind it.
#[derive(Clone, Copy, Debug, PartialEq)]
pub struct Slot {
    pub at: u32,
    pub leads: Leads,
    pub counted: bool,
}

#[derive(Clone, Debug, Default, PartialEq)]
pub struct Buffer {
    pub bytes: Vec<u8>,
    pub slots: Vec<Slot>,
}

/// An item that was laid: its pointer, and its number in order of laying.
#[derive(Clone, Copy, Debug)]
pub struct Laid {
    pub pointer: u32,
    pub item: u32,
}

impl Buffer {
    pub fn zeros(length: usize) -> Buffer {
        Buffer { bytes: vec![0; length], slots: Vec::new() }
    }

    pub fn of(bytes: Vec<u8>) -> Buffer {
        Buffer { bytes, slots: Vec::new() }
    }

    pub fn len(&self) -> usize {
        self.bytes.len()
    }

    pub fn is_empty(&self) -> bool {
        self.bytes.is_empty()
    }

    pub fn put(&mut self, at: usize, bytes: &[u8]) {
        self.bytes[at..at + bytes.len()].copy_from_slice(bytes);
    }

    pub fn put_pointer(&mut self, at: usize, laid: Laid) {
        put_u32(&mut self.bytes, at, laid.pointer);
        self.slots.push(Slot { at: at as u32, leads: Leads::Item(laid.item), counted: false });
    }

    /// A pointer with a count, two times, 8 bytes behind it.
    pub fn put_counted(&mut self, at: usize, laid: Laid, n: usize) {
        put_u32(&mut self.bytes, at, laid.pointer);
        put_u16(&mut self.bytes, at + 8, n as u16);
        put_u16(&mut self.bytes, at + 10, n as u16);
        self.slots.push(Slot { at: at as u32, leads: Leads::Item(laid.item), counted: true });
    }

    /// Nothing is put where a pointer could be.
    pub fn put_nothing(&mut self, at: usize, empty: Option<u32>, counted: bool) {
        self.slots.extend(empty.map(|n| Slot { at: at as u32, leads: Leads::Nowhere(n), counted }));
    }

    /// Another buffer in this one's bytes.
    pub fn place(&mut self, at: usize, other: &Buffer) {
        self.put(at, &other.bytes);
        self.take_slots(at, other);
    }

    /// Another buffer behind this one.
    pub fn append(&mut self, other: &Buffer) {
        let at = self.len();
        self.bytes.extend_from_slice(&other.bytes);
        self.take_slots(at, other);
    }

    fn take_slots(&mut self, at: usize, other: &Buffer) {
        self.slots.extend(other.slots.iter().map(|s| Slot { at: at as u32 + s.at, ..*s }));
    }
}
