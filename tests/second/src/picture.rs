//! One line: its 256 pixels, and what it does to the unit.

use crate::colours::Buffers;
use crate::memory::{nametable_cell, Lent, LINE, OAM};
use crate::unit::{Unit, LAST_LINE};

impl Lent<'_> {
    /// The colour, 0 to 3, of bit `bit` in row `row` of a tile.
    fn tile_colour(&self, right: bool, tile: u8, row: u16, bit: u16) -> u8 {
        let table = if right { self.right } else { self.left };
        let at = 16 * usize::from(tile) + usize::from(row);
        (table[at] >> bit & 1) + 2 * (table[at + 8] >> bit & 1)
    }
}

/// A sprite's four bytes of OAM.
#[derive(Clone, Copy)]
struct Sprite<'a>(&'a [u8]);

impl Sprite<'_> {
    /// The row of the sprite that lies `line` lines below the top of the picture, if any does.
    fn row(self, height: u16, line: u16) -> Option<u16> {
        line.checked_sub(self.0[0].into()).filter(|&row| row < height)
    }

    fn palette(self) -> u8 {
        self.0[2] & 3
    }

    fn is_behind(self) -> bool {
        self.0[2] & 0x20 != 0
    }

    fn mirrors(self) -> bool {
        self.0[2] & 0x40 != 0
    }

    fn flips(self) -> bool {
        self.0[2] & 0x80 != 0
    }

    fn x(self) -> u16 {
        self.0[3].into()
    }

    fn tile(self) -> u8 {
        self.0[1]
    }
}

/// One row down: fine y, then the tile row, then the nametable below.
pub fn row_down(v: u16) -> u16 {
    if v >> 12 < 7 {
        return v + 0x1000;
    }
    let row = v >> 5 & 31;
    let rest = v & 0x0C1F;
    match row {
        29 => rest ^ 0x0800,
        31 => rest,
        _ => rest | (row + 1) << 5,
    }
}

/// One column right: the tile column, then the nametable beside.
pub fn column_right(v: u16) -> u16 {
    if v & 31 == 31 {
        v & !31 ^ 0x0400
    } else {
        v + 1
    }
}

impl Unit {
    pub(crate) fn sprite_height(&self) -> u16 {
        if self.control & 0x20 != 0 {
            16
        } else {
            8
        }
    }

    /// The background's number at a column, 0 where it is not shown or not opaque.
    fn background(&self, scene: &Lent, column: u16) -> u8 {
        let shown = self.mask & 8 != 0 && (column >= 8 || self.mask & 2 != 0);
        if !shown {
            return 0;
        }
        let s = u16::from(self.fine_x) + column;
        let v = (0..s / 8).fold(self.v, |v, _| column_right(v));
        let nametable = |address| scene.nametables[nametable_cell(self.board, address)];
        let tile = nametable(0x2000 + v % 4096);
        let colour = scene.tile_colour(self.control & 0x10 != 0, tile, v >> 12, 7 - s % 8);
        if colour == 0 {
            return 0;
        }
        let (tile_column, tile_row) = (v & 31, v >> 5 & 31);
        let attributes = nametable(0x23C0 + (v & 0x0C00) + 8 * (tile_row / 4) + tile_column / 4);
        let shift = 4 * (tile_row >> 1 & 1) + 2 * (tile_column >> 1 & 1);
        4 * (attributes >> shift & 3) + colour
    }

    /// The colour of a sprite at a column, 0 where it is not shown or not opaque.
    fn sprite_colour(&self, scene: &Lent, sprite: Sprite, column: u16) -> u8 {
        let shown = self.mask & 0x10 != 0 && (column >= 8 || self.mask & 4 != 0);
        let across = column.wrapping_sub(sprite.x());
        let height = self.sprite_height();
        if !shown || across >= 8 {
            return 0;
        }
        let Some(below) = self.next_line.checked_sub(1) else { return 0 };
        let Some(mut row) = sprite.row(height, below) else { return 0 };
        if sprite.flips() {
            row = height - 1 - row;
        }
        let bit = if sprite.mirrors() { across } else { 7 - across };
        if height == 8 {
            scene.tile_colour(self.control & 8 != 0, sprite.tile(), row, bit)
        } else {
            let tile = (sprite.tile() & !1) + u8::from(row >= 8);
            scene.tile_colour(sprite.tile() & 1 != 0, tile, row % 8, bit)
        }
    }

    /// The sprites of the present line: the first eight in OAM order that cover it.
    fn sprites<'a>(&self, oam: &'a [u8; OAM]) -> Vec<Sprite<'a>> {
        let Some(line) = self.next_line.checked_sub(1) else { return Vec::new() };
        let height = self.sprite_height();
        let all = oam.chunks(4).map(Sprite);
        all.filter(|s| s.row(height, line).is_some()).take(8).collect()
    }

    fn pixel(&self, scene: &Lent, sprites: &[Sprite], column: u16) -> u8 {
        let background = self.background(scene, column);
        let mut seen = sprites.iter().map(|&s| (s, self.sprite_colour(scene, s, column)));
        match seen.find(|&(_, colour)| colour != 0) {
            Some((sprite, _)) if sprite.is_behind() && background != 0 => background,
            Some((sprite, colour)) => 16 + 4 * sprite.palette() + colour,
            None => background,
        }
    }

    /// Sprite 0 meets the background at some column but the last.
    fn hits(&self, scene: &Lent) -> bool {
        let first = Sprite(&scene.oam[..4]);
        let meets = |p| self.sprite_colour(scene, first, p) != 0 && self.background(scene, p) != 0;
        (first.x()..first.x() + 8).filter(|&p| p < 255).any(meets)
    }

    fn picture_line(&mut self, scene: &Lent, buffers: &mut Buffers) {
        if !self.is_rendering() {
            (0..LINE).for_each(|column| self.show(scene, buffers, column, 0));
            return;
        }
        let sprites = self.sprites(scene.oam);
        for column in 0..LINE {
            self.show(scene, buffers, column, self.pixel(scene, &sprites, column as u16));
        }
        if self.hits(scene) {
            self.status |= 0x40;
        }
        if self.search(scene.oam, self.next_line).sets {
            self.status |= 0x20;
        }
        self.v = row_down(self.v) & !0x041F | self.t & 0x041F;
        self.oam_address = 0;
    }

    fn last_line(&mut self) {
        self.status = 0;
        self.warmed_up = true;
        if self.is_rendering() {
            self.v = self.t;
            self.oam_address = 0;
        }
    }

    pub fn line(&mut self, scene: &Lent, buffers: &mut Buffers) {
        match self.next_line {
            0..=239 => self.picture_line(scene, buffers),
            241 => self.status |= 0x80,
            LAST_LINE => self.last_line(),
            _ => {}
        }
        self.next_line = (self.next_line + 1) % (LAST_LINE + 1);
    }
}
