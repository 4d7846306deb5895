//! The calls: a record of 16 bytes and byte slices in, an answer out.

use crate::colours::Buffers;
use crate::log::Request;
use crate::memory::{nametable_length, Lent, LentMut};
use crate::runs::{Ran, Reason};
use crate::unit::{Board, Unit, RECORD};

/// The numbers of the reasons to stop a run.
pub const RUN_ALL: u8 = 0;
pub const UNTIL_NMI: u8 = 1;
pub const UNTIL_HIT: u8 = 2;

#[derive(Clone, Copy, Debug, PartialEq, Eq)]
pub enum Refusal {
    Address = 1,
    Length = 2,
    Malformed = 3,
    Drawing = 4,
    Request = 5,
    /// Of two units alone: the calling unit could write the tables that it shares.
    Writable = 6,
    /// Of two units alone: there is no unit of that number.
    UnitNumber = 7,
}

#[derive(Clone, Copy, Debug, Default, PartialEq, Eq)]
pub struct Answer {
    pub number: u8,
    pub byte: u8,
    pub lines: u16,
    pub nmi: bool,
    /// Whether a run met its reason to stop.
    pub met: bool,
    /// Sprites that a search looked at.
    pub looked: u8,
}

/// The answer as the C interface packs it.
impl From<Answer> for u64 {
    fn from(answer: Answer) -> u64 {
        u64::from(answer.number)
            | u64::from(answer.byte) << 8
            | u64::from(answer.nmi) << 16
            | u64::from(answer.met) << 17
            | u64::from(answer.looked) << 24
            | u64::from(answer.lines) << 32
    }
}

/// What a call that is done gives back besides the unit.
#[derive(Default)]
struct Done {
    byte: u8,
    lines: u16,
    met: bool,
}

type Outcome = Result<(Unit, Done), Refusal>;

pub(crate) fn fixed<const N: usize>(slice: &[u8]) -> Result<&[u8; N], Refusal> {
    slice.try_into().map_err(|_| Refusal::Length)
}

fn fixed_mut<const N: usize>(slice: &mut [u8]) -> Result<&mut [u8; N], Refusal> {
    slice.try_into().map_err(|_| Refusal::Length)
}

/// Nametable RAM, if it has the board's own length: so the unit is loaded before memory is looked at.
fn nametables_of<M: AsRef<[u8]>>(board: Board, memory: M) -> Result<M, Refusal> {
    let is_right = memory.as_ref().len() == nametable_length(board);
    is_right.then_some(memory).ok_or(Refusal::Length)
}

pub(crate) fn loaded(record: &[u8; RECORD]) -> Result<Unit, Refusal> {
    Unit::from_record(record).ok_or(Refusal::Malformed)
}

/// The port behind an address.
fn port(address: u16) -> Result<u16, Refusal> {
    match address {
        0x2000..=0x3FFF => Ok(address % 8),
        _ => Err(Refusal::Address),
    }
}

/// Does a call's work on the record, saves the unit if the call is done, and makes the answer.
fn call(record: &mut [u8], work: impl FnOnce(&[u8; RECORD]) -> Outcome) -> Answer {
    match fixed(record).and_then(work) {
        Ok((unit, Done { byte, lines, met })) => {
            record.copy_from_slice(&unit.record());
            Answer { byte, lines, met, nmi: unit.nmi(), ..Answer::default() }
        }
        Err(refusal) => refused(refusal),
    }
}

pub(crate) fn refused(refusal: Refusal) -> Answer {
    Answer { number: refusal as u8, ..Answer::default() }
}

pub fn fresh(record: &mut [u8], board: u8) -> Answer {
    call(record, |_| {
        let board = Board::from_byte(board).ok_or(Refusal::Malformed)?;
        Ok((Unit::fresh(board), Done::default()))
    })
}

pub fn read(
    record: &mut [u8],
    address: u16,
    left: &[u8],
    right: &[u8],
    nametables: &[u8],
    oam: &[u8],
    palette: &[u8],
) -> Answer {
    call(record, |saved| {
        let mut unit = loaded(saved)?;
        let memory = Lent {
            left: fixed(left)?,
            right: fixed(right)?,
            nametables: nametables_of(unit.board, nametables)?,
            oam: fixed(oam)?,
            palette: fixed(palette)?,
        };
        let port = port(address)?;
        if unit.is_drawing() && (port == 4 || port == 7) {
            return Err(Refusal::Drawing);
        }
        let byte = unit.read(port, &memory);
        Ok((unit, Done { byte, ..Done::default() }))
    })
}

#[allow(clippy::too_many_arguments)]
pub fn write(
    record: &mut [u8],
    address: u16,
    byte: u8,
    left: &mut [u8],
    right: &mut [u8],
    nametables: &mut [u8],
    oam: &mut [u8],
    palette: &mut [u8],
) -> Answer {
    call(record, |saved| {
        let mut unit = loaded(saved)?;
        let mut memory = LentMut {
            left: fixed_mut(left)?,
            right: fixed_mut(right)?,
            nametables: nametables_of(unit.board, nametables)?,
            oam: fixed_mut(oam)?,
            palette: fixed_mut(palette)?,
        };
        let port = port(address)?;
        if unit.is_drawing() && port == 7 {
            return Err(Refusal::Drawing);
        }
        unit.write(port, byte, &mut memory);
        Ok((unit, Done::default()))
    })
}

pub fn dma(record: &mut [u8], oam: &mut [u8], page: &[u8]) -> Answer {
    call(record, |saved| {
        let mut unit = loaded(saved)?;
        let oam = fixed_mut(oam)?;
        let page: &[u8; 256] = fixed(page)?;
        page.iter().for_each(|&byte| unit.write_oam(byte, oam));
        Ok((unit, Done::default()))
    })
}

/// The reason to stop that a number stands for; 0 is none.
pub(crate) fn reason_of(number: u8) -> Result<Option<Reason>, Refusal> {
    match number {
        RUN_ALL => Ok(None),
        UNTIL_NMI => Ok(Some(Reason::Nmi)),
        UNTIL_HIT => Ok(Some(Reason::Hit)),
        _ => Err(Refusal::Request),
    }
}

/// Runs lines for a call or a log, whose reason is known by now.
fn lines_run(
    record: &mut [u8],
    most: u16,
    reason: Option<Reason>,
    [left, right, nametables, oam, palette]: [&[u8]; 5],
    [line, colours]: [&mut [u8]; 2],
) -> Answer {
    call(record, |saved| {
        let mut unit = loaded(saved)?;
        let scene = Lent {
            left: fixed(left)?,
            right: fixed(right)?,
            nametables: nametables_of(unit.board, nametables)?,
            oam: fixed(oam)?,
            palette: fixed(palette)?,
        };
        let mut buffers = Buffers { line: fixed_mut(line)?, colours: fixed_mut(colours)? };
        let Ran { lines, met } = unit.run(most, reason, &scene, &mut buffers);
        Ok((unit, Done { lines, met, ..Done::default() }))
    })
}

#[allow(clippy::too_many_arguments)]
pub fn run(
    record: &mut [u8],
    most: u16,
    reason: u8,
    left: &[u8],
    right: &[u8],
    nametables: &[u8],
    oam: &[u8],
    palette: &[u8],
    line: &mut [u8],
    colours: &mut [u8],
) -> Answer {
    match reason_of(reason) {
        Err(refusal) => refused(refusal),
        Ok(reason) => {
            let memory = [left, right, nametables, oam, palette];
            lines_run(record, most, reason, memory, [line, colours])
        }
    }
}

/// The search for overflow on a line; nothing changes.
pub fn search(record: &[u8], line: u16, oam: &[u8]) -> Answer {
    searched(record, line, oam).unwrap_or_else(refused)
}

fn searched(record: &[u8], line: u16, oam: &[u8]) -> Result<Answer, Refusal> {
    if line > 239 {
        return Err(Refusal::Request);
    }
    let unit = loaded(fixed(record)?)?;
    let oam = fixed(oam)?;
    let looked = unit.search(oam, line).looked;
    Ok(Answer { looked, nmi: unit.nmi(), ..Answer::default() })
}

/// Plays the record at the front of a log: the access that it asks for, or its lines with no reason to stop.
#[allow(clippy::too_many_arguments)]
pub fn play(
    record: &mut [u8],
    log: &[u8],
    left: &mut [u8],
    right: &mut [u8],
    nametables: &mut [u8],
    oam: &mut [u8],
    palette: &mut [u8],
    line: &mut [u8],
    colours: &mut [u8],
) -> Answer {
    match Request::at_front(log) {
        Err(refusal) => refused(refusal),
        Ok(Request::Read(address)) => read(record, address, left, right, nametables, oam, palette),
        Ok(Request::Write(address, byte)) => {
            write(record, address, byte, left, right, nametables, oam, palette)
        }
        Ok(Request::Run(lines)) => {
            let memory = [&*left, right, nametables, oam, palette];
            lines_run(record, lines, None, memory, [line, colours])
        }
    }
}
