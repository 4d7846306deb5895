//! The finished colours of a line, pixel by pixel.

use crate::memory::{Lent, COLOURS, LINE};
use crate::unit::Unit;

/// What a line fills: its pixel numbers, and their finished colours, two bytes each.
pub struct Buffers<'a> {
    pub line: &'a mut [u8; LINE],
    pub colours: &'a mut [u8; COLOURS],
}

impl Unit {
    /// The palette address whose colour a pixel shows: that of its number, or v where v is one and
    /// background and sprites are both switched off (backdrop override).
    fn shown_address(&self, number: u8) -> u16 {
        match self.v % 0x4000 {
            v @ 0x3F00.. if !self.is_rendering() => v,
            _ => 0x3F00 + u16::from(number),
        }
    }

    /// A pixel's finished colour: greyscale first, then the emphasis above it.
    fn finished_colour(&self, memory: &Lent, number: u8) -> u16 {
        let colour = self.toned(memory.colour(self.shown_address(number)));
        u16::from(colour) + 64 * u16::from(self.mask >> 5)
    }

    /// Puts a pixel into both buffers.
    pub fn show(&self, memory: &Lent, buffers: &mut Buffers, column: usize, number: u8) {
        let bytes = self.finished_colour(memory, number).to_le_bytes();
        buffers.line[column] = number;
        buffers.colours[2 * column..2 * column + 2].copy_from_slice(&bytes);
    }
}
