//! Contents of units and memories, of many styles.

use crate::random::Random;

/// Lines about which something changes.
const EDGE_LINES: [u16; 12] = [0, 1, 2, 7, 238, 239, 240, 241, 242, 260, 261, 261];
const MASKS: [u8; 8] = [0x00, 0x08, 0x10, 0x18, 0x1A, 0x1C, 0x1E, 0x1F];

/// The board bytes that are well formed, and those of them that have two pages and four.
pub const BOARDS: [u8; 10] = [0, 1, 2, 3, 4, 8, 9, 10, 11, 12];
pub const TWO_PAGES: [u8; 8] = [0, 1, 2, 3, 8, 9, 10, 11];
pub const FOUR_PAGES: [u8; 2] = [4, 12];

/// Boards on which pattern memory cannot be written, so that two units can share it, and on which it can.
pub const FIXED: [u8; 5] = [0, 1, 2, 3, 4];
pub const WRITABLE: [u8; 5] = [8, 9, 10, 11, 12];

/// A well-formed board byte, often one with four pages.
pub fn board(random: &mut Random) -> u8 {
    if random.one_in(4) {
        random.pick(&FOUR_PAGES)
    } else {
        random.pick(&BOARDS)
    }
}

/// A record that is well formed.
pub fn unit(random: &mut Random) -> [u8; 16] {
    let mut unit = [0; 16];
    random.fill(&mut unit);
    if random.one_in(2) {
        unit[1] = random.pick(&MASKS);
    }
    unit[2] &= 0xE0;
    if random.one_in(4) {
        unit[5] = random.pick(&[0x70, 0x73, 0x7B, 0x3F, 0x7F, 0x1F, 0x2F]);
        unit[4] |= random.pick(&[0x1F, 0xA0, 0xE0, 0xFF]);
    }
    unit[5] &= 0x7F;
    unit[7] &= 0x7F;
    unit[8] &= 7;
    unit[9] &= 1;
    let line = if random.one_in(4) { random.pick(&EDGE_LINES) } else { random.below(262) as u16 };
    unit[12..14].copy_from_slice(&line.to_le_bytes());
    unit[14] = u8::from(!random.one_in(12));
    unit[15] = board(random);
    unit
}

/// A record that is well formed, of a unit that can share its pattern tables.
pub fn sharing_unit(random: &mut Random) -> [u8; 16] {
    let mut unit = unit(random);
    unit[15] &= 7;
    unit
}

pub fn next_line(unit: &[u8; 16]) -> u16 {
    u16::from_le_bytes([unit[12], unit[13]])
}

pub fn sprite_height(unit: &[u8; 16]) -> u16 {
    8 << (unit[0] >> 5 & 1)
}

/// Whether a byte, tried as the Y byte of a sprite of that height, is in range of the line.
pub fn is_in_range(y: u8, line: u16, height: u16) -> bool {
    (u16::from(y)..u16::from(y) + height).contains(&line)
}

/// A byte that is in range of the line.
pub fn in_range(random: &mut Random, line: u16, height: u16) -> u8 {
    line.saturating_sub(random.below(height.into()) as u16).min(255) as u8
}

/// A byte that is not in range of the line, often the first above or below.
pub fn out_of_range(random: &mut Random, line: u16, height: u16) -> u8 {
    loop {
        let byte = random.byte();
        let y = random.pick(&[(line + 1) as u8, line.wrapping_sub(height) as u8, 255, byte]);
        if !is_in_range(y, line, height) {
            return y;
        }
    }
}

/// Spoils a record in one place or more.
pub fn spoil(random: &mut Random, unit: &mut [u8; 16]) {
    loop {
        match random.below(8) {
            0 => unit[2] |= 1 << random.below(5),
            1 => unit[5] |= 0x80,
            2 => unit[7] |= 0x80,
            3 => unit[8] = random.within(8, 255) as u8,
            4 => unit[9] = random.within(2, 255) as u8,
            5 => {
                let line = random.pick(&[262, 263, 511, 512, 0x8000, 0xFFFF]);
                let line = if random.one_in(2) { line } else { random.within(262, 65535) };
                unit[12..14].copy_from_slice(&(line as u16).to_le_bytes());
            }
            6 => unit[14] = random.within(2, 255) as u8,
            _ if random.one_in(2) => unit[15] = unit[15] & !7 | random.pick(&[5, 6, 7]),
            _ => unit[15] |= random.pick(&[0x10, 0x20, 0x40, 0x80]),
        }
        if !random.one_in(4) {
            break;
        }
    }
}

/// A record of a log, mostly one that can be played: an access, or few lines.
pub fn log_record(random: &mut Random, address: u16) -> [u8; 4] {
    let ([high, low], last) = (address.to_be_bytes(), random.byte());
    match random.below(16) {
        0 => [random.byte(), 0, random.below(6) as u8, random.pick(&[0, 0, last])],
        1 => [random.pick(&[0, 2]), 0, random.below(6) as u8, last],
        2..=6 => [0, high, low, 0],
        7..=11 => [1, high, low, last],
        _ => [2, 0, random.below(6) as u8, 0],
    }
}

/// A pattern table.
pub fn table(random: &mut Random) -> [u8; 4096] {
    let mut table = [0; 4096];
    match random.below(6) {
        0 => table.fill(0xFF),
        1 => {
            for row in &mut table {
                *row = random.byte() & random.byte() & random.byte();
            }
        }
        2 => {
            for tile in table.chunks_mut(16) {
                match random.below(4) {
                    0 => random.fill(tile),
                    1 => tile.fill(0x81),
                    _ => {}
                }
            }
        }
        3 => {
            for row in &mut table {
                *row = 1 << random.below(8);
            }
        }
        _ => random.fill(&mut table),
    }
    table
}

/// Nametable RAM of four pages, of which a board with two is lent the first two.
pub fn nametables(random: &mut Random) -> [u8; 4096] {
    let mut cells = [0; 4096];
    match random.below(4) {
        0 => {
            let few = [random.byte(), random.byte(), random.byte()];
            for cell in &mut cells {
                *cell = random.pick(&few);
            }
            for page in cells.chunks_mut(1024) {
                random.fill(&mut page[960..]);
            }
        }
        1 => cells.chunks_mut(1024).for_each(|page| page.fill(random.byte())),
        _ => random.fill(&mut cells),
    }
    cells
}

/// A table of characters with a random share of tiles without one.
pub fn characters(random: &mut Random) -> [u8; 256] {
    let bare = random.pick(&[0, 0, 1, 2, 16, 128, 240, 255, 256]);
    let kinds = random.pick(&[1, 2, 16, 96, 255]);
    let any = random.within(1, 255);
    let first = random.pick(&[1, 32, any]);
    let mut table = [0; 256];
    for character in &mut table {
        if random.below(256) >= bare {
            *character = (1 + (first - 1 + random.below(kinds)) % 255) as u8;
        }
    }
    table
}

/// What no row may hold under a table: byte 0, and characters that are not in it.
pub fn strangers(table: &[u8; 256]) -> Vec<u8> {
    (0..=255).filter(|c| *c == 0 || !table.contains(c)).collect()
}

/// Rows drawn from a table, with so many strangers in random places.
pub fn rows(random: &mut Random, table: &[u8; 256], number: usize) -> [u8; 960] {
    let known: Vec<u8> = table.iter().copied().filter(|&c| c != 0).collect();
    let mut rows = [32; 960];
    if !known.is_empty() {
        rows = rows.map(|_| random.pick(&known));
    }
    let strangers = strangers(table);
    for _ in 0..number {
        rows[random.below(960)] = random.pick(&strangers);
    }
    rows
}

/// OAM for the search on a line. Up to some sprite Y bytes are in range by one share, few, most or all of
/// them; all other bytes by another, or none.
pub fn crowd(random: &mut Random, line: u16, height: u16) -> [u8; 256] {
    let (front, rest) = (random.pick(&[8, 16, 32, 64]), random.pick(&[0, 1, 4, 32, 64]));
    let turn = random.within(8, 64);
    std::array::from_fn(|at| {
        let share = if at % 4 == 0 && at / 4 < turn { front } else { rest };
        match random.below(64) < share {
            true => in_range(random, line, height),
            false => out_of_range(random, line, height),
        }
    })
}

/// OAM whose sprites have to do with the line.
pub fn oam(random: &mut Random, line: u16) -> [u8; 256] {
    let height = random.pick(&[8, 16]);
    match random.below(5) {
        0 => crowd(random, line, height),
        _ => sprites(random, line),
    }
}

fn sprites(random: &mut Random, line: u16) -> [u8; 256] {
    let mut oam = [0; 256];
    random.fill(&mut oam);
    let style = random.below(8);
    let wanted = random.within(1, 12);
    let (base_x, attributes) = (random.byte(), random.byte());
    let near = |random: &mut Random| (line + 3).saturating_sub(random.below(22) as u16).min(255) as u8;
    for sprite in oam.chunks_mut(4) {
        match style {
            0 => sprite[0] = near(random),
            1 => {
                sprite[0] =
                    if random.below(64) < wanted { near(random) } else { random.within(240, 255) as u8 }
            }
            2 => {
                sprite[0] = near(random);
                sprite[3] = base_x.wrapping_add(random.below(20) as u8);
            }
            3 => {
                sprite[0] = random.pick(&[0, 1, 2, 222, 223, 224, 231, 232, 238, 239, 240, 247, 254, 255]);
                sprite[3] = random.pick(&[0, 1, 2, 6, 7, 8, 9, 246, 247, 248, 249, 250, 254, 255]);
            }
            4 => {
                sprite[0] = near(random);
                sprite[2] = attributes;
            }
            5 => {
                sprite[0] = if random.below(64) < wanted { near(random) } else { 0xFF };
                sprite[3] = random.pick(&[0, 3, 7, 8, 120, 124, 248, 251, 255]);
            }
            _ => {}
        }
    }
    if random.one_in(3) {
        oam[0] = near(random);
    }
    oam
}
