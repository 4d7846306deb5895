//! The library's C interface, as calls on slices that answer the packed number.

#![allow(clippy::too_many_arguments)]

#[path = "library/shared.rs"]
pub mod shared;

extern "C" {
    fn ppu_fresh(unit: *mut u8, unit_size: usize, board: u8) -> u64;
    fn ppu_read(
        unit: *mut u8,
        unit_size: usize,
        address: u16,
        left: *const u8,
        left_size: usize,
        right: *const u8,
        right_size: usize,
        nametables: *const u8,
        nametables_size: usize,
        oam: *const u8,
        oam_size: usize,
        palette: *const u8,
        palette_size: usize,
    ) -> u64;
    fn ppu_write(
        unit: *mut u8,
        unit_size: usize,
        address: u16,
        byte: u8,
        left: *mut u8,
        left_size: usize,
        right: *mut u8,
        right_size: usize,
        nametables: *mut u8,
        nametables_size: usize,
        oam: *mut u8,
        oam_size: usize,
        palette: *mut u8,
        palette_size: usize,
    ) -> u64;
    fn ppu_dma(
        unit: *mut u8,
        unit_size: usize,
        oam: *mut u8,
        oam_size: usize,
        page: *const u8,
        page_size: usize,
    ) -> u64;
    fn ppu_run(
        unit: *mut u8,
        unit_size: usize,
        most: u16,
        reason: u8,
        left: *const u8,
        left_size: usize,
        right: *const u8,
        right_size: usize,
        nametables: *const u8,
        nametables_size: usize,
        oam: *const u8,
        oam_size: usize,
        palette: *const u8,
        palette_size: usize,
        line: *mut u8,
        line_size: usize,
        colours: *mut u8,
        colours_size: usize,
    ) -> u64;
    fn ppu_search(unit: *const u8, unit_size: usize, line: u16, oam: *const u8, oam_size: usize) -> u64;
    fn ppu_play(
        unit: *mut u8,
        unit_size: usize,
        log: *const u8,
        log_size: usize,
        left: *mut u8,
        left_size: usize,
        right: *mut u8,
        right_size: usize,
        nametables: *mut u8,
        nametables_size: usize,
        oam: *mut u8,
        oam_size: usize,
        palette: *mut u8,
        palette_size: usize,
        line: *mut u8,
        line_size: usize,
        colours: *mut u8,
        colours_size: usize,
    ) -> u64;
}

// The text layer, from the archive beside.
extern "C" {
    fn ppu_text(
        page: *const u8,
        page_size: usize,
        table: *const u8,
        table_size: usize,
        rows: *mut u8,
        rows_size: usize,
    ) -> u64;
    fn ppu_page(
        rows: *const u8,
        rows_size: usize,
        table: *const u8,
        table_size: usize,
        page: *mut u8,
        page_size: usize,
    ) -> u64;
}

// The header's own functions, from `header.c`.
extern "C" {
    fn header_nametable_length(board: u8) -> usize;
    fn header_quarter(board: u8, quarter: u32) -> usize;
}

pub fn nametable_length(board: u8) -> usize {
    unsafe { header_nametable_length(board) }
}

pub fn quarter(board: u8, quarter: u32) -> usize {
    unsafe { header_quarter(board, quarter) }
}

pub fn fresh(unit: &mut [u8], board: u8) -> u64 {
    unsafe { ppu_fresh(unit.as_mut_ptr(), unit.len(), board) }
}

pub fn read(
    unit: &mut [u8],
    address: u16,
    left: &[u8],
    right: &[u8],
    nametables: &[u8],
    oam: &[u8],
    palette: &[u8],
) -> u64 {
    unsafe {
        ppu_read(
            unit.as_mut_ptr(),
            unit.len(),
            address,
            left.as_ptr(),
            left.len(),
            right.as_ptr(),
            right.len(),
            nametables.as_ptr(),
            nametables.len(),
            oam.as_ptr(),
            oam.len(),
            palette.as_ptr(),
            palette.len(),
        )
    }
}

pub fn write(
    unit: &mut [u8],
    address: u16,
    byte: u8,
    left: &mut [u8],
    right: &mut [u8],
    nametables: &mut [u8],
    oam: &mut [u8],
    palette: &mut [u8],
) -> u64 {
    unsafe {
        ppu_write(
            unit.as_mut_ptr(),
            unit.len(),
            address,
            byte,
            left.as_mut_ptr(),
            left.len(),
            right.as_mut_ptr(),
            right.len(),
            nametables.as_mut_ptr(),
            nametables.len(),
            oam.as_mut_ptr(),
            oam.len(),
            palette.as_mut_ptr(),
            palette.len(),
        )
    }
}

pub fn dma(unit: &mut [u8], oam: &mut [u8], page: &[u8]) -> u64 {
    unsafe { ppu_dma(unit.as_mut_ptr(), unit.len(), oam.as_mut_ptr(), oam.len(), page.as_ptr(), page.len()) }
}

pub fn run(
    unit: &mut [u8],
    most: u16,
    reason: u8,
    left: &[u8],
    right: &[u8],
    nametables: &[u8],
    oam: &[u8],
    palette: &[u8],
    line: &mut [u8],
    colours: &mut [u8],
) -> u64 {
    unsafe {
        ppu_run(
            unit.as_mut_ptr(),
            unit.len(),
            most,
            reason,
            left.as_ptr(),
            left.len(),
            right.as_ptr(),
            right.len(),
            nametables.as_ptr(),
            nametables.len(),
            oam.as_ptr(),
            oam.len(),
            palette.as_ptr(),
            palette.len(),
            line.as_mut_ptr(),
            line.len(),
            colours.as_mut_ptr(),
            colours.len(),
        )
    }
}

pub fn search(unit: &[u8], line: u16, oam: &[u8]) -> u64 {
    unsafe { ppu_search(unit.as_ptr(), unit.len(), line, oam.as_ptr(), oam.len()) }
}

pub fn play(
    unit: &mut [u8],
    log: &[u8],
    left: &mut [u8],
    right: &mut [u8],
    nametables: &mut [u8],
    oam: &mut [u8],
    palette: &mut [u8],
    line: &mut [u8],
    colours: &mut [u8],
) -> u64 {
    unsafe {
        ppu_play(
            unit.as_mut_ptr(),
            unit.len(),
            log.as_ptr(),
            log.len(),
            left.as_mut_ptr(),
            left.len(),
            right.as_mut_ptr(),
            right.len(),
            nametables.as_mut_ptr(),
            nametables.len(),
            oam.as_mut_ptr(),
            oam.len(),
            palette.as_mut_ptr(),
            palette.len(),
            line.as_mut_ptr(),
            line.len(),
            colours.as_mut_ptr(),
            colours.len(),
        )
    }
}

pub fn text(page: &[u8], table: &[u8], rows: &mut [u8]) -> u64 {
    unsafe { ppu_text(page.as_ptr(), page.len(), table.as_ptr(), table.len(), rows.as_mut_ptr(), rows.len()) }
}

pub fn page(rows: &[u8], table: &[u8], page: &mut [u8]) -> u64 {
    unsafe { ppu_page(rows.as_ptr(), rows.len(), table.as_ptr(), table.len(), page.as_mut_ptr(), page.len()) }
}
