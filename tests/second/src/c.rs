//! The second picture unit behind the C interface: under names of its own, or, with
//! `cfg(as_library)`, under the library's, to stand in its place.
//!
//! # Safety
//! As for the library: each pointer has that many bytes behind it, and no two overlap.

#![allow(clippy::too_many_arguments, clippy::missing_safety_doc)]

#[path = "c/shared.rs"]
pub mod shared;

use second::calls;
use second::memory;
use second::text;
use second::unit::Board;
use std::slice::{from_raw_parts, from_raw_parts_mut};

type Size = usize;
type Shared = *const u8;
type Mutable = *mut u8;

#[cfg_attr(as_library, export_name = "ppu_fresh")]
#[cfg_attr(not(as_library), export_name = "second_fresh")]
pub unsafe extern "C" fn fresh(unit: Mutable, unit_size: Size, board: u8) -> u64 {
    calls::fresh(from_raw_parts_mut(unit, unit_size), board).into()
}

#[cfg_attr(as_library, export_name = "ppu_read")]
#[cfg_attr(not(as_library), export_name = "second_read")]
pub unsafe extern "C" fn read(
    unit: Mutable,
    unit_size: Size,
    address: u16,
    left: Shared,
    left_size: Size,
    right: Shared,
    right_size: Size,
    nametables: Shared,
    nametables_size: Size,
    oam: Shared,
    oam_size: Size,
    palette: Shared,
    palette_size: Size,
) -> u64 {
    calls::read(
        from_raw_parts_mut(unit, unit_size),
        address,
        from_raw_parts(left, left_size),
        from_raw_parts(right, right_size),
        from_raw_parts(nametables, nametables_size),
        from_raw_parts(oam, oam_size),
        from_raw_parts(palette, palette_size),
    )
    .into()
}

#[cfg_attr(as_library, export_name = "ppu_write")]
#[cfg_attr(not(as_library), export_name = "second_write")]
pub unsafe extern "C" fn write(
    unit: Mutable,
    unit_size: Size,
    address: u16,
    byte: u8,
    left: Mutable,
    left_size: Size,
    right: Mutable,
    right_size: Size,
    nametables: Mutable,
    nametables_size: Size,
    oam: Mutable,
    oam_size: Size,
    palette: Mutable,
    palette_size: Size,
) -> u64 {
    calls::write(
        from_raw_parts_mut(unit, unit_size),
        address,
        byte,
        from_raw_parts_mut(left, left_size),
        from_raw_parts_mut(right, right_size),
        from_raw_parts_mut(nametables, nametables_size),
        from_raw_parts_mut(oam, oam_size),
        from_raw_parts_mut(palette, palette_size),
    )
    .into()
}

#[cfg_attr(as_library, export_name = "ppu_dma")]
#[cfg_attr(not(as_library), export_name = "second_dma")]
pub unsafe extern "C" fn dma(
    unit: Mutable,
    unit_size: Size,
    oam: Mutable,
    oam_size: Size,
    page: Shared,
    page_size: Size,
) -> u64 {
    calls::dma(
        from_raw_parts_mut(unit, unit_size),
        from_raw_parts_mut(oam, oam_size),
        from_raw_parts(page, page_size),
    )
    .into()
}

#[cfg_attr(as_library, export_name = "ppu_run")]
#[cfg_attr(not(as_library), export_name = "second_run")]
pub unsafe extern "C" fn run(
    unit: Mutable,
    unit_size: Size,
    most: u16,
    reason: u8,
    left: Shared,
    left_size: Size,
    right: Shared,
    right_size: Size,
    nametables: Shared,
    nametables_size: Size,
    oam: Shared,
    oam_size: Size,
    palette: Shared,
    palette_size: Size,
    line: Mutable,
    line_size: Size,
    colours: Mutable,
    colours_size: Size,
) -> u64 {
    calls::run(
        from_raw_parts_mut(unit, unit_size),
        most,
        reason,
        from_raw_parts(left, left_size),
        from_raw_parts(right, right_size),
        from_raw_parts(nametables, nametables_size),
        from_raw_parts(oam, oam_size),
        from_raw_parts(palette, palette_size),
        from_raw_parts_mut(line, line_size),
        from_raw_parts_mut(colours, colours_size),
    )
    .into()
}

#[cfg_attr(as_library, export_name = "ppu_search")]
#[cfg_attr(not(as_library), export_name = "second_search")]
pub unsafe extern "C" fn search(
    unit: Shared,
    unit_size: Size,
    line: u16,
    oam: Shared,
    oam_size: Size,
) -> u64 {
    calls::search(from_raw_parts(unit, unit_size), line, from_raw_parts(oam, oam_size)).into()
}

#[cfg_attr(as_library, export_name = "ppu_play")]
#[cfg_attr(not(as_library), export_name = "second_play")]
pub unsafe extern "C" fn play(
    unit: Mutable,
    unit_size: Size,
    log: Shared,
    log_size: Size,
    left: Mutable,
    left_size: Size,
    right: Mutable,
    right_size: Size,
    nametables: Mutable,
    nametables_size: Size,
    oam: Mutable,
    oam_size: Size,
    palette: Mutable,
    palette_size: Size,
    line: Mutable,
    line_size: Size,
    colours: Mutable,
    colours_size: Size,
) -> u64 {
    calls::play(
        from_raw_parts_mut(unit, unit_size),
        from_raw_parts(log, log_size),
        from_raw_parts_mut(left, left_size),
        from_raw_parts_mut(right, right_size),
        from_raw_parts_mut(nametables, nametables_size),
        from_raw_parts_mut(oam, oam_size),
        from_raw_parts_mut(palette, palette_size),
        from_raw_parts_mut(line, line_size),
        from_raw_parts_mut(colours, colours_size),
    )
    .into()
}

#[cfg_attr(as_library, export_name = "ppu_text")]
#[cfg_attr(not(as_library), export_name = "second_text")]
pub unsafe extern "C" fn text(
    page: Shared,
    page_size: Size,
    table: Shared,
    table_size: Size,
    rows: Mutable,
    rows_size: Size,
) -> u64 {
    text::text(
        from_raw_parts(page, page_size),
        from_raw_parts(table, table_size),
        from_raw_parts_mut(rows, rows_size),
    )
    .into()
}

#[cfg_attr(as_library, export_name = "ppu_page")]
#[cfg_attr(not(as_library), export_name = "second_page")]
pub unsafe extern "C" fn page(
    rows: Shared,
    rows_size: Size,
    table: Shared,
    table_size: Size,
    page: Mutable,
    page_size: Size,
) -> u64 {
    text::page(
        from_raw_parts(rows, rows_size),
        from_raw_parts(table, table_size),
        from_raw_parts_mut(page, page_size),
    )
    .into()
}

// These two the library has in its header alone, which `header.c` compiles.

/// How much nametable RAM a board has, for a well-formed board byte.
#[cfg_attr(as_library, export_name = "header_nametable_length")]
#[cfg_attr(not(as_library), export_name = "second_nametable_length")]
pub extern "C" fn nametable_length(board: u8) -> Size {
    Board::from_byte(board).map_or(Size::MAX, memory::nametable_length)
}

/// Where the page of a quarter begins, for a well-formed board byte.
#[cfg_attr(as_library, export_name = "header_quarter")]
#[cfg_attr(not(as_library), export_name = "second_quarter")]
pub extern "C" fn quarter(board: u8, quarter: u32) -> Size {
    Board::from_byte(board).map_or(Size::MAX, |board| text::quarter(board, (quarter % 4) as u16))
}
