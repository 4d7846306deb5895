//! The text layer: the text of a nametable page, and the page of a text, by a table that gives each
//! tile a character. It knows no unit.

use crate::unit::Board;

/// A nametable page: 960 tile bytes, then 64 attribute bytes.
pub const PAGE: usize = 1024;
pub const CHARACTERS: usize = 256;
pub const ROWS: usize = 30;
pub const ROW: usize = 32;
pub const TEXT: usize = ROWS * ROW;
const SPACE: u8 = 32;

#[derive(Clone, Copy, Debug, PartialEq, Eq)]
pub enum Refusal {
    Length = 2,
    Character = 8,
}

/// An answer: its number, and how many tiles had no character.
#[derive(Clone, Copy, Debug, PartialEq, Eq)]
pub struct Answer {
    pub number: u8,
    pub count: u32,
}

/// The answer as the C interface packs it.
impl From<Answer> for u64 {
    fn from(answer: Answer) -> u64 {
        u64::from(answer.number) | u64::from(answer.count) << 32
    }
}

impl From<Result<u32, Refusal>> for Answer {
    fn from(outcome: Result<u32, Refusal>) -> Answer {
        match outcome {
            Ok(count) => Answer { number: 0, count },
            Err(refusal) => Answer { number: refusal as u8, count: 0 },
        }
    }
}

fn fixed<const N: usize>(slice: &[u8]) -> Result<&[u8; N], Refusal> {
    slice.try_into().map_err(|_| Refusal::Length)
}

fn fixed_mut<const N: usize>(slice: &mut [u8]) -> Result<&mut [u8; N], Refusal> {
    slice.try_into().map_err(|_| Refusal::Length)
}

/// Where in nametable RAM the page of a quarter of $2000-$2FFF begins.
pub fn quarter(board: Board, quarter: u16) -> usize {
    board.wiring.page(quarter % 4) * PAGE
}

/// Writes the text of a page.
pub fn text(page: &[u8], table: &[u8], rows: &mut [u8]) -> Answer {
    text_of(page, table, rows).into()
}

fn text_of(page: &[u8], table: &[u8], rows: &mut [u8]) -> Result<u32, Refusal> {
    let page: &[u8; PAGE] = fixed(page)?;
    let table: &[u8; CHARACTERS] = fixed(table)?;
    let rows: &mut [u8; TEXT] = fixed_mut(rows)?;
    let mut count = 0;
    for row in 0..ROWS {
        for column in 0..ROW {
            let tile = page[ROW * row + column];
            let mut character = table[usize::from(tile)];
            if character == 0 {
                character = SPACE;
                count += 1;
            }
            rows[ROW * row + column] = character;
        }
    }
    Ok(count)
}

/// Writes the page of a text.
pub fn page(rows: &[u8], table: &[u8], page: &mut [u8]) -> Answer {
    page_of(rows, table, page).into()
}

fn page_of(rows: &[u8], table: &[u8], page: &mut [u8]) -> Result<u32, Refusal> {
    let rows: &[u8; TEXT] = fixed(rows)?;
    let table: &[u8; CHARACTERS] = fixed(table)?;
    let page: &mut [u8; PAGE] = fixed_mut(page)?;
    if rows.iter().any(|&character| lowest_tile(table, character).is_none()) {
        return Err(Refusal::Character);
    }
    for (cell, &character) in page.iter_mut().zip(rows) {
        *cell = lowest_tile(table, character).ok_or(Refusal::Character)?;
    }
    Ok(0)
}

/// The lowest tile with the character; byte 0 is none.
fn lowest_tile(table: &[u8; CHARACTERS], character: u8) -> Option<u8> {
    if character == 0 {
        return None;
    }
    (0..=255).find(|&tile| table[usize::from(tile)] == character)
}
