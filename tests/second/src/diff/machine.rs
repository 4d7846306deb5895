//! A machine on both sides: the library's memories and the second unit's, which are the same between calls.

use crate::world::{Name, World};

#[derive(Clone)]
pub struct Machine {
    pub library: World,
    pub second: World,
}

impl Machine {
    pub fn new() -> Machine {
        Machine { library: World::new(), second: World::new() }
    }

    /// A memory, which is the same on both sides.
    pub fn of(&self, name: Name) -> &[u8] {
        self.library.of(name)
    }

    /// Fills the front of a memory, or a part of it, the same on both sides.
    pub fn set(&mut self, name: Name, bytes: &[u8]) {
        self.set_at(name, 0, bytes);
    }

    pub fn set_at(&mut self, name: Name, at: usize, bytes: &[u8]) {
        for world in [&mut self.library, &mut self.second] {
            world.of_mut(name)[at..at + bytes.len()].copy_from_slice(bytes);
        }
    }
}
