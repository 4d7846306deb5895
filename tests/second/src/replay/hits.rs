//! Sprite 0 hits: what a capture says of the line on which one comes, beside the runs that wait for it.
//!
//! Sprite 0 is the first in OAM order. A column in which it is opaque shows it, or the background if that is
//! opaque and sprite 0 behind it. So a captured picture says of a sprite 0 behind the background on which line
//! it hits; of one in front it says on which lines it can. Whether it hits at all the captured reads of port 2
//! say.

use second::calls::RUN_ALL;
use second::log::Machine;
use second::unit::LAST_LINE;

pub const HIT: u8 = 0x40;
const BEHIND: u8 = 0x20;
const BACKGROUND: u8 = 0x08;
const TALLEST: u16 = 16;

/// What a captured line says of a hit.
#[derive(Clone, Copy, Debug, PartialEq, Eq)]
pub enum Word {
    Hit,
    NoHit,
    Either,
}

/// The columns but the last in which sprite 0 is shown and opaque on the machine's next line: what is left of
/// the line without background and other sprites.
fn columns(machine: &Machine) -> Vec<usize> {
    let y = u16::from(machine.oam[0]);
    if !(y + 1..=y + TALLEST).contains(&machine.next_line()) {
        return Vec::new();
    }
    let mut alone = machine.clone();
    alone.unit[1] &= !BACKGROUND;
    alone.oam[4..].fill(0xFF);
    alone.run(1, RUN_ALL);
    (0..255).filter(|&column| alone.line[column] >= 16).collect()
}

/// What a captured line, which is the machine's next, says of a hit.
pub fn word(machine: &Machine, captured: &[u8]) -> Word {
    let columns = columns(machine);
    let shows_background = |&column: &usize| (1..16).contains(&captured[column]);
    if columns.is_empty() {
        Word::NoHit
    } else if machine.oam[2] & BEHIND == 0 {
        Word::Either
    } else if columns.iter().any(shows_background) {
        Word::Hit
    } else {
        Word::NoHit
    }
}

/// Pictures whose hits were compared with the capture.
#[derive(Default)]
pub struct Tally {
    /// With a hit on the one line that the capture leaves for it, on one of some lines, and without a hit.
    pub known: usize,
    pub among: usize,
    pub without: usize,
}

impl Tally {
    pub fn are_of_each_kind(&self) -> bool {
        [self.known, self.among, self.without].iter().all(|&number| number > 0)
    }
}

/// The hits of a replay; all but the tally is since line 261.
#[derive(Default)]
pub struct Hits {
    /// The line on which a run that waits for a hit stopped.
    met: Option<u16>,
    /// The lines on which the capture lets sprite 0 hit, up to the first on which it shows that.
    left: Vec<u16>,
    is_shown: bool,
    /// Whether the capture has the picture, which is not counted yet.
    is_due: bool,
    pub tally: Tally,
}

impl Hits {
    /// Takes a line: whether a run that waits for a hit stopped on it, and the capture's word if it has one.
    pub fn take(&mut self, line: u16, is_met: bool, word: Option<Word>) -> Result<(), String> {
        if line == LAST_LINE {
            *self = Hits { tally: std::mem::take(&mut self.tally), ..Hits::default() };
        }
        if is_met {
            self.met = Some(line);
        }
        let Some(word) = word else { return Ok(()) };
        if word != Word::NoHit && !self.is_shown {
            self.left.push(line);
        }
        self.is_shown |= word == Word::Hit;
        self.is_due = true;
        match word {
            Word::NoHit if is_met => Err(format!("line {line}: a hit, and the capture shows none")),
            Word::Hit if self.met.is_none() => Err(format!("line {line}: no hit, and the capture shows one")),
            _ => Ok(()),
        }
    }

    /// Compares a captured read of port 2 with the line that was met; counts the picture if it is over.
    pub fn compare(&mut self, status: u8, next_line: u16) -> Result<(), String> {
        if (status & HIT != 0) != self.met.is_some() {
            return Err(format!("a hit was met on line {:?}, the capture has {status:02X}", self.met));
        }
        if !self.is_due || !(240..=LAST_LINE).contains(&next_line) {
            return Ok(());
        }
        self.is_due = false;
        match (self.met, &self.left[..]) {
            (None, _) => self.tally.without += 1,
            (Some(met), &[line]) if met == line => self.tally.known += 1,
            (Some(met), lines) if lines.len() > 1 && lines.contains(&met) => self.tally.among += 1,
            (Some(met), lines) => return Err(format!("a hit on line {met}, the capture leaves {lines:?}")),
        }
        Ok(())
    }
}
