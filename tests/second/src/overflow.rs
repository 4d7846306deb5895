//! The search for overflow, sprite by sprite, as the chip makes it.

use crate::memory::OAM;
use crate::unit::Unit;

/// How a search of OAM ended.
pub struct Search {
    /// Sprites looked at, the one that sets the bit included.
    pub looked: u8,
    pub sets: bool,
}

impl Unit {
    /// A byte, tried as a Y byte, is in range of a line: unlike in a picture, from line y itself.
    pub fn is_in_range(&self, y: u8, line: u16) -> bool {
        let top = u16::from(y);
        top <= line && line < top + self.sprite_height()
    }

    /// The search on a line, whatever mask and next line are.
    pub fn search(&self, oam: &[u8; OAM], line: u16) -> Search {
        let mut looked = 0;
        let mut found = 0;
        // Which of a sprite's four bytes is tried as its Y byte.
        let mut byte = 0;
        for sprite in oam.chunks(4) {
            looked += 1;
            match (found, self.is_in_range(sprite[byte], line)) {
                (8, true) => return Search { looked, sets: true },
                // The chip's fault: it steps to the next byte along with the next sprite.
                (8, false) => byte = (byte + 1) % 4,
                (_, true) => found += 1,
                (_, false) => {}
            }
        }
        Search { looked, sets: false }
    }
}
