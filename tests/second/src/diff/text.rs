//! Sessions of the text layer: through all values of something, and random ones.

use crate::call::{Call, Kind};
use crate::mixed::mislength;
use crate::random::Random;
use crate::scenery;
use crate::systematic::refill;
use crate::trial::{Stop, Trial};
use crate::world::Name;
use second::memory::nametable_length;
use second::unit::Board;

type Table = [u8; 256];
type Page = [u8; 1024];
type Rows = [u8; 960];

fn bytes<const N: usize>(random: &mut Random) -> [u8; N] {
    let mut bytes = [0; N];
    random.fill(&mut bytes);
    bytes
}

/// The text of a page; what stood in the rows is random.
fn text(trial: &mut Trial, random: &mut Random, page: &Page, table: &Table) -> Result<u64, Stop> {
    trial.set(Name::Screen, page);
    trial.set(Name::Table, table);
    trial.set(Name::Rows, &bytes::<960>(random));
    trial.call(&Call::text())
}

/// The page of rows; what stood in the page is random.
fn page(trial: &mut Trial, random: &mut Random, rows: &Rows, table: &Table) -> Result<u64, Stop> {
    trial.set(Name::Screen, &bytes::<1024>(random));
    trial.set(Name::Table, table);
    trial.set(Name::Rows, rows);
    trial.call(&Call::page())
}

/// Each tile with the character of its own number: tile 0 has none.
fn identity() -> Table {
    std::array::from_fn(|tile| tile as u8)
}

fn permutation(random: &mut Random) -> Table {
    let mut table = identity();
    for tile in 0..256 {
        table.swap(tile, random.within(tile, 255));
    }
    table
}

/// Every tile with a character, all but one of them different.
fn full(random: &mut Random) -> Table {
    let mut table = permutation(random);
    let bare = table.iter().position(|&c| c == 0).unwrap_or(0);
    table[bare] = random.within(1, 255) as u8;
    table
}

/// Every character on two tiles, the second row of tiles in the same order or turned round.
fn twice(turned: bool) -> Table {
    std::array::from_fn(|tile| match tile {
        128.. if turned => (256 - tile) as u8,
        _ => (tile % 128 + 1) as u8,
    })
}

/// Tables of every kind: plain ones, one tile without a character, one tile with one.
fn table(random: &mut Random, number: usize) -> Table {
    let mut table = match number {
        0 => identity(),
        1 | 264.. => [0; 256],
        2 => [random.within(1, 255) as u8; 256],
        3 => [32; 256],
        4 => permutation(random),
        5 => twice(false),
        6 => twice(true),
        7 => scenery::characters(random),
        8.. => full(random),
    };
    match number {
        8..264 => table[number - 8] = 0,
        264.. => table[number - 264] = random.within(1, 255) as u8,
        _ => {}
    }
    table
}

/// Every tile under a table; then the rows so written as a page, rows of the table, and every character.
pub fn tables(trial: &mut Trial, random: &mut Random, part: usize) -> Result<(), Stop> {
    refill(trial, random);
    for number in (part..8 + 2 * 256).step_by(8) {
        let table = table(random, number);
        let (step, shift) = (2 * random.below(128) + 1, random.below(256));
        text(trial, random, &std::array::from_fn(|at| (step * at + shift) as u8), &table)?;
        trial.set(Name::Screen, &bytes::<1024>(random));
        trial.call(&Call::page())?;
        let rows = scenery::rows(random, &table, 0);
        page(trial, random, &rows, &table)?;
        page(trial, random, &std::array::from_fn(|at| (step * at + shift) as u8), &table)?;
    }
    Ok(())
}

/// A page with each of its bytes, attribute bytes too, changed in turn; there and back.
pub fn places_of_a_page(trial: &mut Trial, random: &mut Random, part: usize) -> Result<(), Stop> {
    refill(trial, random);
    let table = if part == 0 { full(random) } else { scenery::characters(random) };
    let plain: Page = bytes(random);
    for place in 0..1024 {
        let mut page = plain;
        page[place] = page[place].wrapping_add(random.within(1, 255) as u8);
        text(trial, random, &page, &table)?;
        trial.call(&Call::page())?;
    }
    Ok(())
}

/// Rows with byte 0, or a character that is not in the table, at each place in turn, all others known.
pub fn places_of_rows(trial: &mut Trial, random: &mut Random, part: usize) -> Result<(), Stop> {
    refill(trial, random);
    let table = twice(part % 2 == 1);
    let plain = match part {
        0 | 1 => [table[random.below(256)]; 960],
        _ => scenery::rows(random, &table, 0),
    };
    for place in 0..960 {
        for stranger in [0, random.within(129, 255) as u8] {
            let mut rows = plain;
            rows[place] = stranger;
            page(trial, random, &rows, &table)?;
        }
    }
    page(trial, random, &plain, &table).map(drop)
}

/// Every character at the first place, the last and another, also under tables with 32 alone, and without it.
pub fn characters(trial: &mut Trial, random: &mut Random, part: usize) -> Result<(), Stop> {
    refill(trial, random);
    let mut table = match part {
        0 => identity(),
        1 => permutation(random),
        2 => [0; 256],
        _ => full(random),
    };
    match part {
        2 => table[random.below(256)] = 32,
        3 => table = table.map(|c| if c == 32 { 0 } else { c }),
        _ => {}
    }
    for place in [0, random.within(1, 958), 959] {
        for character in 0..=255 {
            let mut rows = scenery::rows(random, &table, 0);
            rows[place] = character;
            page(trial, random, &rows, &table)?;
        }
    }
    Ok(())
}

/// Every value of the attribute bytes, which stay and do not matter.
pub fn attribute_bytes(trial: &mut Trial, random: &mut Random, _: usize) -> Result<(), Stop> {
    refill(trial, random);
    for value in 0..=255 {
        let table = full(random);
        let strangers = random.pick(&[0, 0, 0, 1]);
        let rows = scenery::rows(random, &table, strangers);
        let mut cells: Page = bytes(random);
        cells[960..].fill(value);
        text(trial, random, &cells, &table)?;
        trial.set(Name::Rows, &rows);
        trial.call(&Call::page())?;
        trial.set_at(Name::Screen, 960 + random.below(64), &[!value]);
        trial.call(&Call::page())?;
    }
    Ok(())
}

/// All three memories one byte short, right or one byte long, with strangers in the rows and without.
pub fn three_lengths(trial: &mut Trial, random: &mut Random, part: usize) -> Result<(), Stop> {
    let kind = [Kind::Text, Kind::Page][part];
    refill(trial, random);
    for which in 0..27 {
        for strangers in [0, 1, 2000, 0] {
            let table = full(random);
            trial.set(Name::Table, &table);
            trial.set(Name::Rows, &scenery::rows(random, &table, strangers));
            let offs = [which % 3, which / 3 % 3, which / 9];
            let lent = kind.lent().iter().zip(offs);
            let call = lent
                .fold(Call::new(kind), |call, (&name, off)| call.with_length(name, name.longest() + off - 1));
            trial.call(&call)?;
        }
    }
    Ok(())
}

/// What port 7 writes into a quarter of nametable memory stands in the text of the quarter's page.
pub fn quarters(trial: &mut Trial, random: &mut Random, part: usize) -> Result<(), Stop> {
    let board = scenery::BOARDS[part];
    for quarter in 0..4u16 {
        refill(trial, random);
        let mut unit = [0; 16];
        unit[4..6].copy_from_slice(&(0x2000 + 0x400 * quarter).to_le_bytes());
        unit[12] = 241;
        unit[15] = board;
        trial.set(Name::Unit, &unit);
        let (tiles, table) = (bytes::<960>(random), full(random));
        for tile in tiles {
            trial.call(&Call::write(0x2007, tile))?;
        }
        let start = start_of_quarter(board, quarter);
        let page = trial.of(Name::Nametables)[start..start + 1024].try_into().expect("a page");
        text(trial, random, &page, &table)?;
        let shown = tiles.map(|tile| table[usize::from(tile)]);
        assert!(trial.of(Name::Rows)[..960] == shown, "the page of quarter {quarter} on board {board}");
    }
    Ok(())
}

/// Where the page of a quarter begins; the header says so too, and how much nametable RAM the board has.
fn start_of_quarter(byte: u8, quarter: u16) -> usize {
    let board = Board::from_byte(byte).expect("a board byte");
    let start = second::text::quarter(board, quarter);
    for again in [quarter, quarter + 4, quarter + 0xFFFC] {
        assert_eq!(library::quarter(byte, again.into()), start, "quarter {again} on board {byte}");
    }
    assert_eq!(library::nametable_length(byte), nametable_length(board), "nametable RAM of board {byte}");
    start
}

/// Pages, tables and rows that are drawn anew now and then, and calls there and back.
pub fn session(trial: &mut Trial, random: &mut Random, calls: usize) -> Result<(), Stop> {
    refill(trial, random);
    let mut table = scenery::characters(random);
    for _ in 0..calls {
        if random.one_in(8) {
            table = scenery::characters(random);
        }
        trial.set(Name::Table, &table);
        match random.below(8) {
            0 => trial.set(Name::Screen, &bytes::<1024>(random)),
            1 => trial.set(Name::Screen, &scenery::nametables(random)[..1024]),
            2 => trial.set_at(Name::Screen, random.below(1024), &[random.byte()]),
            3 => trial.set_at(Name::Rows, random.below(960), &[random.byte()]),
            4..=6 => {
                let strangers = random.pick(&[0, 0, 0, 1, 2, 10, 100, 2000]);
                trial.set(Name::Rows, &scenery::rows(random, &table, strangers));
            }
            _ => {}
        }
        let mut call = Call::new(random.pick(&[Kind::Text, Kind::Page]));
        if random.one_in(40) {
            mislength(trial, random, &mut call);
        }
        trial.call(&call)?;
    }
    Ok(())
}
