//! Two units in one machine. They share the pattern tables and both line buffers; record, nametable RAM, OAM
//! and palette are each unit's own and come in pairs, unit 0's first.

#![allow(clippy::too_many_arguments)]

use crate::calls::{self, fixed, loaded, reason_of, refused, Answer, Refusal};
use crate::unit::{Unit, LAST_LINE};

/// The one of the two units that calls.
#[derive(Clone, Copy)]
enum Caller {
    Unit0,
    Unit1,
}

impl Caller {
    fn of(which: u8) -> Result<Caller, Refusal> {
        match which {
            0 => Ok(Caller::Unit0),
            1 => Ok(Caller::Unit1),
            _ => Err(Refusal::UnitNumber),
        }
    }

    /// Of a pair the calling unit's own; the other unit's is not looked at, not even for its length.
    fn own<T>(self, [of_0, of_1]: [T; 2]) -> T {
        match self {
            Caller::Unit0 => of_0,
            Caller::Unit1 => of_1,
        }
    }
}

/// The calling unit, which may not be able to write what it shares.
fn admitted(record: &[u8]) -> Result<Unit, Refusal> {
    let unit = loaded(fixed(record)?)?;
    if unit.board.writable {
        return Err(Refusal::Writable);
    }
    Ok(unit)
}

pub fn read(
    which: u8,
    records: [&mut [u8]; 2],
    address: u16,
    left: &[u8],
    right: &[u8],
    nametables: [&[u8]; 2],
    oam: [&[u8]; 2],
    palette: [&[u8]; 2],
) -> Answer {
    let read = || {
        let caller = Caller::of(which)?;
        let record = caller.own(records);
        admitted(record)?;
        let [nametables, oam, palette] = [nametables, oam, palette].map(|pair| caller.own(pair));
        Ok(calls::read(record, address, left, right, nametables, oam, palette))
    };
    read().unwrap_or_else(refused)
}

/// The tables are only looked at: the write is made on copies of them, which no board that is admitted changes.
pub fn write(
    which: u8,
    records: [&mut [u8]; 2],
    address: u16,
    byte: u8,
    left: &[u8],
    right: &[u8],
    nametables: [&mut [u8]; 2],
    oam: [&mut [u8]; 2],
    palette: [&mut [u8]; 2],
) -> Answer {
    let write = || {
        let caller = Caller::of(which)?;
        let record = caller.own(records);
        admitted(record)?;
        let (left, right) = (&mut left.to_vec(), &mut right.to_vec());
        let [nametables, oam, palette] = [nametables, oam, palette].map(|pair| caller.own(pair));
        Ok(calls::write(record, address, byte, left, right, nametables, oam, palette))
    };
    write().unwrap_or_else(refused)
}

pub fn dma(which: u8, records: [&mut [u8]; 2], oam: [&mut [u8]; 2], page: &[u8]) -> Answer {
    let dma = || {
        let caller = Caller::of(which)?;
        let record = caller.own(records);
        admitted(record)?;
        Ok(calls::dma(record, caller.own(oam), page))
    };
    dma().unwrap_or_else(refused)
}

/// Whether one of lines 0 to 239 is among so many lines from a next line.
fn has_picture(next_line: u16, lines: u16) -> bool {
    (0..lines).any(|ran| (next_line + ran) % (LAST_LINE + 1) < 240)
}

/// A run without a line of the picture leaves none: what stands in the buffers may be the other unit's.
pub fn run(
    which: u8,
    records: [&mut [u8]; 2],
    most: u16,
    reason: u8,
    left: &[u8],
    right: &[u8],
    nametables: [&[u8]; 2],
    oam: [&[u8]; 2],
    palette: [&[u8]; 2],
    line: &mut [u8],
    colours: &mut [u8],
) -> Answer {
    let run = || {
        let caller = Caller::of(which)?;
        reason_of(reason)?;
        let record = caller.own(records);
        let start = admitted(record)?.next_line;
        let [nametables, oam, palette] = [nametables, oam, palette].map(|pair| caller.own(pair));
        let answer = calls::run(record, most, reason, left, right, nametables, oam, palette, line, colours);
        if answer.number == 0 && !has_picture(start, answer.lines) {
            line.fill(0);
            colours.fill(0);
        }
        Ok(answer)
    };
    run().unwrap_or_else(refused)
}
