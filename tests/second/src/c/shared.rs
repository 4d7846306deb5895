//! Two units in one machine, behind the C interface.

use crate::{Mutable, Shared, Size};
use second::shared;
use std::slice::{from_raw_parts, from_raw_parts_mut};

/// Both units' memory of one kind, to be looked at.
unsafe fn pair<'a>(of_0: Shared, size_0: Size, of_1: Shared, size_1: Size) -> [&'a [u8]; 2] {
    [from_raw_parts(of_0, size_0), from_raw_parts(of_1, size_1)]
}

unsafe fn pair_mut<'a>(of_0: Mutable, size_0: Size, of_1: Mutable, size_1: Size) -> [&'a mut [u8]; 2] {
    [from_raw_parts_mut(of_0, size_0), from_raw_parts_mut(of_1, size_1)]
}

#[cfg_attr(as_library, export_name = "ppu_shared_read")]
#[cfg_attr(not(as_library), export_name = "second_shared_read")]
pub unsafe extern "C" fn read(
    which: u8,
    unit0: Mutable,
    unit0_size: Size,
    unit1: Mutable,
    unit1_size: Size,
    address: u16,
    left: Shared,
    left_size: Size,
    right: Shared,
    right_size: Size,
    nametables0: Shared,
    nametables0_size: Size,
    nametables1: Shared,
    nametables1_size: Size,
    oam0: Shared,
    oam0_size: Size,
    oam1: Shared,
    oam1_size: Size,
    palette0: Shared,
    palette0_size: Size,
    palette1: Shared,
    palette1_size: Size,
) -> u64 {
    shared::read(
        which,
        pair_mut(unit0, unit0_size, unit1, unit1_size),
        address,
        from_raw_parts(left, left_size),
        from_raw_parts(right, right_size),
        pair(nametables0, nametables0_size, nametables1, nametables1_size),
        pair(oam0, oam0_size, oam1, oam1_size),
        pair(palette0, palette0_size, palette1, palette1_size),
    )
    .into()
}

#[cfg_attr(as_library, export_name = "ppu_shared_write")]
#[cfg_attr(not(as_library), export_name = "second_shared_write")]
pub unsafe extern "C" fn write(
    which: u8,
    unit0: Mutable,
    unit0_size: Size,
    unit1: Mutable,
    unit1_size: Size,
    address: u16,
    byte: u8,
    left: Shared,
    left_size: Size,
    right: Shared,
    right_size: Size,
    nametables0: Mutable,
    nametables0_size: Size,
    nametables1: Mutable,
    nametables1_size: Size,
    oam0: Mutable,
    oam0_size: Size,
    oam1: Mutable,
    oam1_size: Size,
    palette0: Mutable,
    palette0_size: Size,
    palette1: Mutable,
    palette1_size: Size,
) -> u64 {
    shared::write(
        which,
        pair_mut(unit0, unit0_size, unit1, unit1_size),
        address,
        byte,
        from_raw_parts(left, left_size),
        from_raw_parts(right, right_size),
        pair_mut(nametables0, nametables0_size, nametables1, nametables1_size),
        pair_mut(oam0, oam0_size, oam1, oam1_size),
        pair_mut(palette0, palette0_size, palette1, palette1_size),
    )
    .into()
}

#[cfg_attr(as_library, export_name = "ppu_shared_dma")]
#[cfg_attr(not(as_library), export_name = "second_shared_dma")]
pub unsafe extern "C" fn dma(
    which: u8,
    unit0: Mutable,
    unit0_size: Size,
    unit1: Mutable,
    unit1_size: Size,
    oam0: Mutable,
    oam0_size: Size,
    oam1: Mutable,
    oam1_size: Size,
    page: Shared,
    page_size: Size,
) -> u64 {
    shared::dma(
        which,
        pair_mut(unit0, unit0_size, unit1, unit1_size),
        pair_mut(oam0, oam0_size, oam1, oam1_size),
        from_raw_parts(page, page_size),
    )
    .into()
}

#[cfg_attr(as_library, export_name = "ppu_shared_run")]
#[cfg_attr(not(as_library), export_name = "second_shared_run")]
pub unsafe extern "C" fn run(
    which: u8,
    unit0: Mutable,
    unit0_size: Size,
    unit1: Mutable,
    unit1_size: Size,
    most: u16,
    reason: u8,
    left: Shared,
    left_size: Size,
    right: Shared,
    right_size: Size,
    nametables0: Shared,
    nametables0_size: Size,
    nametables1: Shared,
    nametables1_size: Size,
    oam0: Shared,
    oam0_size: Size,
    oam1: Shared,
    oam1_size: Size,
    palette0: Shared,
    palette0_size: Size,
    palette1: Shared,
    palette1_size: Size,
    line: Mutable,
    line_size: Size,
    colours: Mutable,
    colours_size: Size,
) -> u64 {
    shared::run(
        which,
        pair_mut(unit0, unit0_size, unit1, unit1_size),
        most,
        reason,
        from_raw_parts(left, left_size),
        from_raw_parts(right, right_size),
        pair(nametables0, nametables0_size, nametables1, nametables1_size),
        pair(oam0, oam0_size, oam1, oam1_size),
        pair(palette0, palette0_size, palette1, palette1_size),
        from_raw_parts_mut(line, line_size),
        from_raw_parts_mut(colours, colours_size),
    )
    .into()
}
