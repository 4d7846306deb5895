//! The lent memories and where an address leads.

use crate::unit::Board;

pub const TABLE: usize = 4096;
/// A page of nametable RAM; how many there are the board says.
pub const NAMETABLE: usize = 1024;
pub const OAM: usize = 256;
pub const PALETTE: usize = 32;
pub const LINE: usize = 256;
pub const COLOURS: usize = 512;
pub const PAGE: usize = 256;

/// What a read or a line is lent to look at.
pub struct Lent<'a> {
    pub left: &'a [u8; TABLE],
    pub right: &'a [u8; TABLE],
    /// As long as `nametable_length` of the unit's board says.
    pub nametables: &'a [u8],
    pub oam: &'a [u8; OAM],
    pub palette: &'a [u8; PALETTE],
}

/// What a write is lent.
pub struct LentMut<'a> {
    pub left: &'a mut [u8; TABLE],
    pub right: &'a mut [u8; TABLE],
    pub nametables: &'a mut [u8],
    pub oam: &'a mut [u8; OAM],
    pub palette: &'a mut [u8; PALETTE],
}

/// How much nametable RAM a board has.
pub fn nametable_length(board: Board) -> usize {
    board.wiring.pages() * NAMETABLE
}

/// The cell of nametable RAM behind an address from $2000.
pub fn nametable_cell(board: Board, address: u16) -> usize {
    let quarter = address / 1024 % 4;
    board.wiring.page(quarter) * NAMETABLE + usize::from(address % 1024)
}

/// The cell of the palette behind an address from $3F00.
pub fn palette_cell(address: u16) -> usize {
    match address % 32 {
        16 => 0,
        20 => 4,
        24 => 8,
        28 => 12,
        cell => cell.into(),
    }
}

impl Lent<'_> {
    /// The byte at an address below $3F00.
    pub fn byte(&self, board: Board, address: u16) -> u8 {
        match address {
            0..=0x0FFF => self.left[usize::from(address)],
            0x1000..=0x1FFF => self.right[usize::from(address - 0x1000)],
            _ => self.nametable(board, address),
        }
    }

    pub fn nametable(&self, board: Board, address: u16) -> u8 {
        self.nametables[nametable_cell(board, address)]
    }

    /// The unit's colour, 0 to 63, in the palette behind an address from $3F00.
    pub fn colour(&self, address: u16) -> u8 {
        self.palette[palette_cell(address)] % 64
    }
}

impl LentMut<'_> {
    /// Stores a byte at an address below $4000.
    pub fn store(&mut self, board: Board, address: u16, byte: u8) {
        match address {
            0..=0x1FFF if !board.writable => {}
            0..=0x0FFF => self.left[usize::from(address)] = byte,
            0x1000..=0x1FFF => self.right[usize::from(address - 0x1000)] = byte,
            0x2000..=0x3EFF => self.nametables[nametable_cell(board, address)] = byte,
            _ => self.palette[palette_cell(address)] = byte % 64,
        }
    }
}
