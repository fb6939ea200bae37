//! Memory that is lent to the port: each slice stands inside a larger buffer with guards before and behind it, and all of it is watched.

use crate::sys::SaltCell;

/// What can stand in a lent slice; a later module adds its own item type here.
pub trait Item: Copy {
    /// The guard's value at a place.
    fn guard(place: usize) -> Self;
    /// Whether two values have the same bits.
    fn same(self, other: Self) -> bool;
}

impl Item for u8 {
    fn guard(place: usize) -> u8 {
        0xC7 + (place * 29 % 48) as u8
    }

    fn same(self, other: u8) -> bool {
        self == other
    }
}

impl Item for u16 {
    fn guard(place: usize) -> u16 {
        0xC700 + (place * 29 % 251) as u16
    }

    fn same(self, other: u16) -> bool {
        self == other
    }
}

impl Item for usize {
    fn guard(place: usize) -> usize {
        0xC7C7_0000 + place * 29
    }

    fn same(self, other: usize) -> bool {
        self == other
    }
}

impl Item for f32 {
    fn guard(place: usize) -> f32 {
        f32::from_bits(0xC7C7_0000 + (place * 29 % 65_521) as u32)
    }

    fn same(self, other: f32) -> bool {
        self.to_bits() == other.to_bits()
    }
}

impl Item for SaltCell {
    fn guard(place: usize) -> SaltCell {
        SaltCell { re: f32::guard(2 * place), im: f32::guard(2 * place + 1) }
    }

    fn same(self, other: SaltCell) -> bool {
        self.re.same(other.re) && self.im.same(other.im)
    }
}

/// How many guard items stand behind a slice, and at least so many before it.
const GUARD: usize = 64;

/// A slice lent to the port, with its surroundings and a copy of how they were.
pub struct Lent<T: Item> {
    name: &'static str,
    writable: bool,
    start: usize,
    length: usize,
    memory: Vec<T>,
    before: Vec<T>,
}

impl<T: Item> Lent<T> {
    /// Lends items that the port may only read.
    pub fn to_read(name: &'static str, items: &[T]) -> Self {
        Self::new(name, false, items)
    }

    /// Lends items that the port may write.
    pub fn to_write(name: &'static str, items: &[T]) -> Self {
        Self::new(name, true, items)
    }

    /// Puts items between guards, at an alignment that goes by their number.
    fn new(name: &'static str, writable: bool, items: &[T]) -> Self {
        let start = GUARD + items.len() * 7 % 16;
        let mut memory: Vec<T> = (0..start + items.len() + GUARD).map(T::guard).collect();
        memory[start..start + items.len()].copy_from_slice(items);
        Self { name, writable, start, length: items.len(), before: memory.clone(), memory }
    }

    /// The slice as it is now.
    pub fn slice(&self) -> &[T] {
        &self.memory[self.start..self.start + self.length]
    }

    /// The slice, to be handed to the port.
    pub fn slice_mut(&mut self) -> &mut [T] {
        &mut self.memory[self.start..self.start + self.length]
    }

    /// Says where memory was changed that the port may not write, counted from the slice's first item.
    fn trespass(&mut self) -> Option<String> {
        let memory = std::hint::black_box(&mut self.memory);
        let own = self.start..self.start + self.length;
        let place = (0..memory.len())
            .filter(|place| !(self.writable && own.contains(place)))
            .find(|place| !memory[*place].same(self.before[*place]))?;
        Some(format!("changed at {} {}", self.name, place as isize - self.start as isize))
    }
}

/// What a call left of the memory that it may not write; to be read after the call.
pub fn surroundings<T: Item>(lent: &mut [&mut Lent<T>]) -> String {
    let found: Vec<String> = lent.iter_mut().filter_map(|one| one.trespass()).collect();
    if found.is_empty() { UNTOUCHED.to_string() } else { found.join(", ") }
}

/// What `surroundings` says where all is well.
pub const UNTOUCHED: &str = "untouched";

/// How an output stands before a call: no byte of it is 00, 10, 1F, 47 or FF, so a byte left unwritten shows.
pub fn background(length: usize) -> Vec<u8> {
    (0..length).map(|place| 0x81 + (place * 37 % 70) as u8).collect()
}

/// How large an output is lent, against what the call needs.
#[derive(Clone, Copy)]
pub enum Room {
    Exact,
    Longer(usize),
    Short(usize),
}

/// An output with no byte at all, whatever is needed.
pub const EMPTY: Room = Room::Short(usize::MAX);

impl Room {
    /// The size to lend where so many are needed.
    pub fn size(self, needed: usize) -> usize {
        match self {
            Room::Exact => needed,
            Room::Longer(surplus) => needed + surplus,
            Room::Short(missing) => needed.saturating_sub(missing),
        }
    }

    /// Rooms nearer to the exact one.
    pub fn smaller(self) -> Vec<Room> {
        match self {
            Room::Exact => vec![],
            Room::Longer(surplus) => std::iter::once(Room::Exact).chain(crate::shrink::numbers(surplus).filter(|n| *n > 0).map(Room::Longer)).collect(),
            Room::Short(missing) => std::iter::once(Room::Exact).chain(crate::shrink::numbers(missing).filter(|n| *n > 0).map(Room::Short)).collect(),
        }
    }
}
