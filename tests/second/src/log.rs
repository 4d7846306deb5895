//! The records of a log, and the player of logs.

use crate::calls::{self, Answer, Refusal};
use crate::memory::{nametable_length, COLOURS, LINE, OAM, PALETTE, TABLE};
use crate::unit::{Board, Unit, Wiring, RECORD};
use std::io::{self, Write};

/// Board 9.
const BOARD: Board = Board { wiring: Wiring::Vertical, writable: true };

/// What a record of a log asks for.
#[derive(Clone, Copy, Debug, PartialEq, Eq)]
pub enum Request {
    Read(u16),
    Write(u16, u8),
    Run(u16),
}

impl Request {
    /// The request of the record at the front of a log; what stands behind it does not matter.
    pub fn at_front(log: &[u8]) -> Result<Request, Refusal> {
        let &[kind, high, low, last, ..] = log else { return Err(Refusal::Request) };
        let number = u16::from_be_bytes([high, low]);
        match (kind, last) {
            (0, 0) => Ok(Request::Read(number)),
            (1, byte) => Ok(Request::Write(number, byte)),
            (2, 0) => Ok(Request::Run(number)),
            _ => Err(Refusal::Request),
        }
    }
}

/// A unit as its record, with all the memory that it is lent.
#[derive(Clone, PartialEq, Eq)]
pub struct Machine {
    pub unit: [u8; RECORD],
    pub left: [u8; TABLE],
    pub right: [u8; TABLE],
    pub nametables: Vec<u8>,
    pub oam: [u8; OAM],
    pub palette: [u8; PALETTE],
    pub line: [u8; LINE],
    pub colours: [u8; COLOURS],
}

impl Machine {
    /// A fresh unit and all memory zero.
    pub fn new(board: Board) -> Machine {
        Machine {
            unit: Unit::fresh(board).record(),
            left: [0; TABLE],
            right: [0; TABLE],
            nametables: vec![0; nametable_length(board)],
            oam: [0; OAM],
            palette: [0; PALETTE],
            line: [0; LINE],
            colours: [0; COLOURS],
        }
    }

    pub fn read(&mut self, address: u16) -> Answer {
        calls::read(
            &mut self.unit,
            address,
            &self.left,
            &self.right,
            &self.nametables,
            &self.oam,
            &self.palette,
        )
    }

    pub fn write(&mut self, address: u16, byte: u8) -> Answer {
        calls::write(
            &mut self.unit,
            address,
            byte,
            &mut self.left,
            &mut self.right,
            &mut self.nametables,
            &mut self.oam,
            &mut self.palette,
        )
    }

    pub fn run(&mut self, most: u16, reason: u8) -> Answer {
        calls::run(
            &mut self.unit,
            most,
            reason,
            &self.left,
            &self.right,
            &self.nametables,
            &self.oam,
            &self.palette,
            &mut self.line,
            &mut self.colours,
        )
    }

    pub fn search(&self, line: u16) -> Answer {
        calls::search(&self.unit, line, &self.oam)
    }

    pub fn play(&mut self, log: &[u8]) -> Answer {
        calls::play(
            &mut self.unit,
            log,
            &mut self.left,
            &mut self.right,
            &mut self.nametables,
            &mut self.oam,
            &mut self.palette,
            &mut self.line,
            &mut self.colours,
        )
    }

    pub fn next_line(&self) -> u16 {
        u16::from_le_bytes([self.unit[12], self.unit[13]])
    }
}

/// Plays a log from a fresh unit of board 9, and prints what the player prints.
pub fn play(log: &[u8], out: &mut impl Write) -> io::Result<()> {
    let mut machine = Machine::new(BOARD);
    for record in log.chunks(4) {
        let answer = machine.play(record);
        match (Request::at_front(record), answer.number) {
            (Ok(Request::Read(_)), 0) => writeln!(out, "{:02X}", answer.byte)?,
            (Ok(Request::Write(..)), 0) => {}
            (Ok(Request::Run(_)), 0) => {
                writeln!(out, "line {} nmi {}", machine.next_line(), u8::from(answer.nmi))?
            }
            (Ok(_), number) => writeln!(out, "refused {number}")?,
            (Err(refusal), _) => {
                writeln!(out, "refused {}", refusal as u8)?;
                break;
            }
        }
    }
    out.flush()
}
