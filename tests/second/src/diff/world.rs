//! The memories that a call is lent, on either side.

/// The memories, in the order in which calls name them.
#[derive(Clone, Copy, Debug, PartialEq, Eq)]
pub enum Name {
    Unit,
    Left,
    Right,
    Nametables,
    Oam,
    Palette,
    Line,
    /// The finished colours of the line.
    Colours,
    Page,
    Log,
    /// The nametable page of the text layer; `Page` is the one for sprite DMA.
    Screen,
    Rows,
    /// The table of characters.
    Table,
    /// What the second of two units has for itself; `Unit`, `Nametables`, `Oam` and `Palette` are then unit 0's.
    Unit1,
    Nametables1,
    Oam1,
    Palette1,
}

use Name::*;

impl Name {
    pub const ALL: [Name; NAMES] = [
        Unit,
        Left,
        Right,
        Nametables,
        Oam,
        Palette,
        Line,
        Colours,
        Page,
        Log,
        Screen,
        Rows,
        Table,
        Unit1,
        Nametables1,
        Oam1,
        Palette1,
    ];

    pub fn text(self) -> &'static str {
        [
            "unit",
            "left",
            "right",
            "nametables",
            "oam",
            "palette",
            "line",
            "colours",
            "page",
            "log",
            "screen",
            "rows",
            "table",
            "unit1",
            "nametables1",
            "oam1",
            "palette1",
        ][self as usize]
    }

    /// The same memory of one of two units; what they share, and what is lent to no unit, as it is.
    pub fn of_unit(self, which: u8) -> Name {
        match (which, self) {
            (1, Unit) => Unit1,
            (1, Nametables) => Nametables1,
            (1, Oam) => Oam1,
            (1, Palette) => Palette1,
            _ => self,
        }
    }

    /// The record whose board says how long this memory is.
    fn record(self) -> Name {
        match self {
            Nametables1 => Unit1,
            _ => Unit,
        }
    }

    /// The right length, of nametable RAM the longest that is right for a board.
    pub fn longest(self) -> usize {
        LONGEST[self as usize]
    }

    /// The right length for a unit whose record has that board byte; only nametable RAM goes by it.
    pub fn length(self, board: u8) -> usize {
        match self {
            Nametables | Nametables1 if !has_four_pages(board) => TWO_PAGES,
            _ => self.longest(),
        }
    }

    /// Wrong lengths for that board: near the right one and far from it, and for nametable RAM the one of the
    /// other boards.
    pub fn wrong_lengths(self, board: u8) -> Vec<usize> {
        let right = self.length(board);
        let is_nametables = matches!(self, Nametables | Nametables1);
        let others = is_nametables.then_some(TWO_PAGES + FOUR_PAGES - right);
        [right - 1, right + 1, 0, self.longest() + SLACK].into_iter().chain(others).collect()
    }
}

/// Lengths of nametable RAM: of boards with two pages, and with four.
const TWO_PAGES: usize = 2048;
const FOUR_PAGES: usize = 4096;

/// Whether a board byte, well formed or not, has the wiring with four pages.
pub fn has_four_pages(board: u8) -> bool {
    board & 7 == 4
}

pub const NAMES: usize = 17;

/// Each unit's own memory, as unit 0 has it.
pub const OWN: [Name; 4] = [Unit, Nametables, Oam, Palette];

/// A log may be longer than the record at its front.
const LONGEST: [usize; NAMES] =
    [16, 4096, 4096, FOUR_PAGES, 256, 32, 256, 512, 256, 4, 1024, 960, 256, 16, FOUR_PAGES, 256, 32];

/// Bytes beyond the longest right length that a call may be lent.
pub const SLACK: usize = 64;
const GUARD: usize = 32;

/// One memory: guard bytes, its bytes and some more, guard bytes.
#[derive(Clone, PartialEq, Eq)]
pub struct Memory(Vec<u8>);

impl Memory {
    fn new(length: usize) -> Memory {
        let guard = (0..GUARD).map(|i| 0xC3 ^ (37 * i) as u8);
        let inside = std::iter::repeat_n(0, length + SLACK);
        Memory(guard.clone().chain(inside).chain(guard).collect())
    }

    /// All bytes but the guards.
    pub fn bytes(&self) -> &[u8] {
        &self.0[GUARD..self.0.len() - GUARD]
    }

    pub fn bytes_mut(&mut self) -> &mut [u8] {
        let end = self.0.len() - GUARD;
        &mut self.0[GUARD..end]
    }

    /// Where two memories first differ, counted from the first byte that may be lent.
    pub fn first_difference(&self, other: &Memory) -> Option<(isize, u8, u8)> {
        let mut pairs = self.0.iter().zip(&other.0).zip(-(GUARD as isize)..);
        pairs.find(|((a, b), _)| a != b).map(|((&a, &b), at)| (at, a, b))
    }
}

#[derive(Clone, PartialEq, Eq)]
pub struct World(pub [Memory; NAMES]);

impl World {
    pub fn new() -> World {
        World(LONGEST.map(Memory::new))
    }

    /// The right length of a memory, of nametable RAM for its unit as that stands, and wrong ones.
    pub fn length(&self, name: Name) -> usize {
        name.length(self.of(name.record())[15])
    }

    pub fn wrong_lengths(&self, name: Name) -> Vec<usize> {
        name.wrong_lengths(self.of(name.record())[15])
    }

    /// The record of one of two units; of unit 0 for any other number.
    pub fn unit(&self, which: u8) -> [u8; 16] {
        self.of(Unit.of_unit(which))[..16].try_into().unwrap()
    }

    pub fn of(&self, name: Name) -> &[u8] {
        self.0[name as usize].bytes()
    }

    pub fn of_mut(&mut self, name: Name) -> &mut [u8] {
        self.0[name as usize].bytes_mut()
    }

    /// The memories as they are lent.
    pub fn slices(&mut self, lengths: [usize; NAMES]) -> [&mut [u8]; NAMES] {
        let mut lengths = lengths.into_iter();
        self.0.each_mut().map(|memory| &mut memory.bytes_mut()[..lengths.next().unwrap_or(0)])
    }
}
