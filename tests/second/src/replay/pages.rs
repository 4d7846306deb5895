//! Pages of nametable RAM: whether a capture shows each of them, and as itself.

use second::calls::RUN_ALL;
use second::log::Machine;
use second::memory::NAMETABLE;

/// Pages of the boards that carry nametable RAM of their own.
pub const PAGES: usize = 4;

/// Captured lines that would be others if a page held what another one holds, by the two pages.
#[derive(Default)]
pub struct Tally([[usize; PAGES]; PAGES]);

impl Tally {
    /// Takes a captured line, which is the machine's next.
    pub fn take(&mut self, machine: &Machine, captured: &[u8]) {
        for (page, counts) in self.0.iter_mut().enumerate() {
            for other in (0..PAGES).filter(|&other| other != page) {
                let mut altered = machine.clone();
                let from = other * NAMETABLE;
                altered.nametables.copy_within(from..from + NAMETABLE, page * NAMETABLE);
                altered.run(1, RUN_ALL);
                counts[other] += usize::from(altered.line != *captured);
            }
        }
    }

    /// Of each page, the lines that tell it from the page that it is least often told from.
    pub fn told_apart(&self) -> [usize; PAGES] {
        std::array::from_fn(|page| {
            let others = (0..PAGES).filter(|&other| other != page);
            others.map(|other| self.0[page][other]).min().unwrap_or(0)
        })
    }
}
