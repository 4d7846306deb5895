//! Runs: lines one after the other, until a reason to stop is met or they run out.

use crate::colours::Buffers;
use crate::memory::Lent;
use crate::unit::Unit;

/// What stops a run before its lines have run out.
#[derive(Clone, Copy, Debug, PartialEq, Eq)]
pub enum Reason {
    /// Line 241 with control bit 7.
    Nmi,
    /// Status bit 6 goes from 0 to 1.
    Hit,
}

/// What a run says of itself.
#[derive(Clone, Copy, Debug, PartialEq, Eq)]
pub struct Ran {
    pub lines: u16,
    pub met: bool,
}

impl Unit {
    /// One line; whether the reason, if there is one, is met on it.
    fn line_meets(&mut self, reason: Option<Reason>, scene: &Lent, buffers: &mut Buffers) -> bool {
        let before = self.clone();
        self.line(scene, buffers);
        match reason {
            None => false,
            Some(Reason::Nmi) => before.next_line == 241 && before.control & 0x80 != 0,
            Some(Reason::Hit) => before.status & 0x40 == 0 && self.status & 0x40 != 0,
        }
    }

    /// Runs up to `most` lines; the line that meets the reason is the last, and is counted.
    pub fn run(&mut self, most: u16, reason: Option<Reason>, scene: &Lent, buffers: &mut Buffers) -> Ran {
        for lines in 1..=most {
            if self.line_meets(reason, scene, buffers) {
                return Ran { lines, met: true };
            }
        }
        Ran { lines: most, met: false }
    }
}
