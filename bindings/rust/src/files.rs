//! Table files: a grid and its table in blocks of 512 bytes, for a controller's flash. docs/TABLE-FILES.md has every byte.
//!
//! No file is opened here: a file is a slice of bytes, and to store and fetch it is the caller's. Entries are kept bit for bit, NaNs of
//! both kinds with their payloads too. The check is a sum and no signature: changes that cancel each other are not seen.

use crate::{c, refusal::told, Grid, Refusal};

/// The bytes of the table file of a grid, for [`write_table`]: a block of 512 bytes, and one for each 126 entries or part of them. The
/// refusals of [`layout`](crate::layout).
pub fn file_length(grid: &Grid) -> Result<usize, Refusal> {
    let mut length = 0;
    // SAFETY: the array has the length that is asked, and `length` is a local.
    told(unsafe { c::tenahvar_file_length(&grid.sizes, grid.n, grid.m, &mut length) })?;
    Ok(length as usize)
}

/// Writes a table file: sets the first bytes of `file`, as many as [`file_length`] tells, and no others. Entries past [`Grid::total`] and
/// sizes past the `n` inks do not count. The refusals of [`layout`](crate::layout), then 6, then 8 where `file` is shorter than that.
pub fn write_table(grid: &Grid, table: &[f32], file: &mut [u8]) -> Result<(), Refusal> {
    // SAFETY: each pointer goes with its slice's length, and the `&mut` overlaps nothing.
    told(unsafe {
        c::tenahvar_write_table(
            &grid.sizes,
            grid.n,
            grid.m,
            table.as_ptr(),
            table.len(),
            file.as_mut_ptr(),
            file.len(),
        )
    })
}

/// The grid of a table file, with zeros for the sizes past its inks. The first 512 bytes are enough, and what follows is not looked at:
/// [`Grid::total`] then tells how many entries [`read_table`] needs room for. Refusals 17 for under 512 bytes, then 18, 19 and 20 of block
/// 0, then those of [`layout`](crate::layout).
pub fn file_layout(file: &[u8]) -> Result<Grid, Refusal> {
    let mut grid = Grid::new(0, 0, 0);
    // SAFETY: the pointer goes with its slice's length, and the `&mut` are parts of a local that do not overlap.
    let number = unsafe {
        c::tenahvar_file_layout(
            file.as_ptr(),
            file.len(),
            &mut grid.sizes,
            &mut grid.n,
            &mut grid.m,
        )
    };
    told(number).map(|()| grid)
}

/// Reads a table file: sets the first entries of `entries`, as many as [`Grid::total`] of the grid that it answers, and no others. The
/// refusals of [`file_layout`], then 17 for the whole length, then 18, 19 and 20 of each later block in turn, last 8.
pub fn read_table(file: &[u8], entries: &mut [f32]) -> Result<Grid, Refusal> {
    let mut grid = Grid::new(0, 0, 0);
    // SAFETY: each pointer goes with its slice's length, and no `&mut` overlaps anything.
    let number = unsafe {
        c::tenahvar_read_table(
            file.as_ptr(),
            file.len(),
            &mut grid.sizes,
            &mut grid.n,
            &mut grid.m,
            entries.as_mut_ptr(),
            entries.len(),
        )
    };
    told(number).map(|()| grid)
}
