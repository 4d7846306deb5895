//! The unit, its record, and its ports.

use crate::memory::{Lent, LentMut};

pub const RECORD: usize = 16;
pub const LAST_LINE: u16 = 261;
const ADDRESSES: u16 = 0x8000;

#[derive(Clone, Copy, Debug, PartialEq, Eq)]
pub enum Wiring {
    Horizontal,
    Vertical,
    FirstPage,
    SecondPage,
    FourPages,
}

impl Wiring {
    /// The page of nametable RAM behind a quarter of $2000-$2FFF.
    pub fn page(self, quarter: u16) -> usize {
        match self {
            Wiring::Horizontal => usize::from(quarter >= 2),
            Wiring::Vertical => usize::from(quarter % 2 == 1),
            Wiring::FirstPage => 0,
            Wiring::SecondPage => 1,
            Wiring::FourPages => quarter.into(),
        }
    }

    /// How many pages nametable RAM has: the console's two, or four of the cartridge's own.
    pub fn pages(self) -> usize {
        match self {
            Wiring::FourPages => 4,
            _ => 2,
        }
    }
}

#[derive(Clone, Copy, Debug, PartialEq, Eq)]
pub struct Board {
    pub wiring: Wiring,
    pub writable: bool,
}

impl Board {
    pub fn from_byte(byte: u8) -> Option<Board> {
        let wiring = match byte & 0b111 {
            0 => Wiring::Horizontal,
            1 => Wiring::Vertical,
            2 => Wiring::FirstPage,
            3 => Wiring::SecondPage,
            4 => Wiring::FourPages,
            _ => return None,
        };
        (byte >> 4 == 0).then_some(Board { wiring, writable: byte & 8 != 0 })
    }

    pub fn byte(self) -> u8 {
        self.wiring as u8 | u8::from(self.writable) << 3
    }
}

#[derive(Clone, Debug, PartialEq, Eq)]
pub struct Unit {
    pub control: u8,
    pub mask: u8,
    pub status: u8,
    pub oam_address: u8,
    pub v: u16,
    pub t: u16,
    pub fine_x: u8,
    /// The write toggle w: true when the next write of port 5 or 6 is the second of its pair.
    pub second_write: bool,
    pub read_buffer: u8,
    pub latch: u8,
    pub next_line: u16,
    pub warmed_up: bool,
    pub board: Board,
}

fn flag(byte: u8) -> Option<bool> {
    match byte {
        0 => Some(false),
        1 => Some(true),
        _ => None,
    }
}

fn below(limit: u16, low: u8, high: u8) -> Option<u16> {
    Some(u16::from_le_bytes([low, high])).filter(|&n| n < limit)
}

impl Unit {
    pub fn fresh(board: Board) -> Unit {
        Unit {
            control: 0,
            mask: 0,
            status: 0,
            oam_address: 0,
            v: 0,
            t: 0,
            fine_x: 0,
            second_write: false,
            read_buffer: 0,
            latch: 0,
            next_line: 0,
            warmed_up: false,
            board,
        }
    }

    /// The unit of a record, or nothing if the record is not well formed.
    pub fn from_record(r: &[u8; RECORD]) -> Option<Unit> {
        Some(Unit {
            control: r[0],
            mask: r[1],
            status: Some(r[2]).filter(|s| s & 0x1F == 0)?,
            oam_address: r[3],
            v: below(ADDRESSES, r[4], r[5])?,
            t: below(ADDRESSES, r[6], r[7])?,
            fine_x: Some(r[8]).filter(|&x| x < 8)?,
            second_write: flag(r[9])?,
            read_buffer: r[10],
            latch: r[11],
            next_line: below(LAST_LINE + 1, r[12], r[13])?,
            warmed_up: flag(r[14])?,
            board: Board::from_byte(r[15])?,
        })
    }

    pub fn record(&self) -> [u8; RECORD] {
        let [v0, v1] = self.v.to_le_bytes();
        let [t0, t1] = self.t.to_le_bytes();
        let [n0, n1] = self.next_line.to_le_bytes();
        [
            self.control,
            self.mask,
            self.status,
            self.oam_address,
            v0,
            v1,
            t0,
            t1,
            self.fine_x,
            self.second_write.into(),
            self.read_buffer,
            self.latch,
            n0,
            n1,
            self.warmed_up.into(),
            self.board.byte(),
        ]
    }

    /// Mask bit 3 or 4: background or sprites are switched on.
    pub fn is_rendering(&self) -> bool {
        self.mask & 0x18 != 0
    }

    pub fn is_drawing(&self) -> bool {
        self.is_rendering() && matches!(self.next_line, 0..=239 | LAST_LINE)
    }

    pub fn nmi(&self) -> bool {
        self.control & self.status & 0x80 != 0
    }

    fn advance(&mut self) {
        let step = if self.control & 4 != 0 { 32 } else { 1 };
        self.v = (self.v + step) % ADDRESSES;
    }

    /// What a read of the port answers; the caller has ruled out ports 4 and 7 while drawing.
    pub fn read(&mut self, port: u16, memory: &Lent) -> u8 {
        self.latch = match port {
            2 => self.read_status(),
            4 => self.read_oam(memory),
            7 => self.read_video(memory),
            _ => self.latch,
        };
        self.latch
    }

    fn read_status(&mut self) -> u8 {
        let answer = self.status & 0xE0 | self.latch & 0x1F;
        self.status &= 0x7F;
        self.second_write = false;
        answer
    }

    fn read_oam(&self, memory: &Lent) -> u8 {
        let byte = memory.oam[usize::from(self.oam_address)];
        if self.oam_address % 4 == 2 {
            byte & 0xE3
        } else {
            byte
        }
    }

    fn read_video(&mut self, memory: &Lent) -> u8 {
        let address = self.v % 0x4000;
        let answer = if address < 0x3F00 {
            let old = self.read_buffer;
            self.read_buffer = memory.byte(self.board, address);
            old
        } else {
            self.read_buffer = memory.nametable(self.board, address);
            self.latch & 0xC0 | self.toned(memory.colour(address))
        };
        self.advance();
        answer
    }

    /// A colour of the palette as it comes out: greyscale leaves bits 5 and 4.
    pub fn toned(&self, colour: u8) -> u8 {
        if self.mask & 1 != 0 {
            colour & 0x30
        } else {
            colour
        }
    }

    /// A write of the port; the caller has ruled out port 7 while drawing.
    pub fn write(&mut self, port: u16, byte: u8, memory: &mut LentMut) {
        self.latch = byte;
        match port {
            3 => self.oam_address = byte,
            4 => self.write_oam(byte, memory.oam),
            7 => {
                memory.store(self.board, self.v % 0x4000, byte);
                self.advance();
            }
            0 | 1 | 5 | 6 if !self.warmed_up => {}
            0 => {
                self.control = byte;
                self.t = self.t & !0x0C00 | u16::from(byte & 3) << 10;
            }
            1 => self.mask = byte,
            5 => self.write_scroll(byte),
            6 => self.write_address(byte),
            _ => {}
        }
    }

    pub fn write_oam(&mut self, byte: u8, oam: &mut [u8; 256]) {
        self.latch = byte;
        if !self.is_drawing() {
            oam[usize::from(self.oam_address)] = byte;
            self.oam_address = self.oam_address.wrapping_add(1);
        }
    }

    fn write_scroll(&mut self, byte: u8) {
        let (tile, fine) = (u16::from(byte / 8), byte % 8);
        if self.second_write {
            self.t = self.t & 0x0C1F | u16::from(fine) << 12 | tile << 5;
        } else {
            self.t = self.t & 0x7FE0 | tile;
            self.fine_x = fine;
        }
        self.second_write = !self.second_write;
    }

    fn write_address(&mut self, byte: u8) {
        let [low, high] = self.t.to_le_bytes();
        if self.second_write {
            self.t = u16::from_le_bytes([byte, high]);
            self.v = self.t;
        } else {
            self.t = u16::from_le_bytes([low, byte % 64]);
        }
        self.second_write = !self.second_write;
    }
}
