//! Colour lookup of 1 to 15 inks in a grid of `f32` entries: safe calls of the proved library.
//!
//! Every call checks its arguments itself and answers a [`Refusal`] where one applies; a refused call has written nothing.
//! There is no state and no allocation. That a buffer overlaps nothing else is what `&mut` says.
#![no_std]
#![warn(missing_docs)]

mod c;
mod cubes;
mod files;
mod refusal;
#[cfg(test)]
mod tests;

pub use cubes::{prismatic, pyramidal, trilinear};
pub use files::{file_layout, file_length, read_table, write_table};
use refusal::told;
pub use refusal::Refusal;

/// What is asked of a layout. Only the first `n` sizes count: the grid lines of each ink, the first ink first.
#[derive(Clone, Copy, Debug, PartialEq, Eq)]
pub struct Grid {
    /// Grid sizes.
    pub sizes: [u8; 16],
    /// Input inks.
    pub n: usize,
    /// Output inks.
    pub m: usize,
}

impl Grid {
    /// `n` inks of the size `g`, and `m` output inks.
    pub fn new(g: u8, n: usize, m: usize) -> Grid {
        let sizes = core::array::from_fn(|i| if i < n { g } else { 0 });
        Grid { sizes, n, m }
    }

    /// An ink for each size, and `m` output inks. More sizes than inks can be are refused as too many inks.
    pub fn of_sizes(sizes: &[u8], m: usize) -> Grid {
        Grid {
            sizes: core::array::from_fn(|i| sizes.get(i).copied().unwrap_or(0)),
            n: sizes.len(),
            m,
        }
    }

    /// Ink `j`, counted from 1, is taken out: the sizes after it move up by one, and the last place is 0.
    fn without(&self, j: usize) -> Grid {
        let mut sizes = self.sizes;
        sizes.copy_within(j.., j - 1);
        sizes[15] = 0;
        Grid {
            sizes,
            n: self.n - 1,
            m: self.m,
        }
    }

    /// The entries that a table needs: the sizes of the `n` inks and `m`, multiplied. The refusals of [`layout`].
    pub fn total(&self) -> Result<usize, Refusal> {
        let mut total = 0;
        // SAFETY: the array has the length that is asked, and `total` is a local.
        told(unsafe { c::tenahvar_total(&self.sizes, self.n, self.m, &mut total) })?;
        Ok(total as usize)
    }
}

/// The rows of a layout record, a place for each ink. Unused places hold 1, 1 and 0.0.
#[derive(Clone, Copy, Debug, PartialEq)]
pub struct Layout {
    /// Nodes from one line of the ink to its next.
    pub grid_strides: [u32; 16],
    /// Table entries from one line of the ink to its next.
    pub grid_filling_size: [u32; 16],
    /// The size less 1.
    pub grid_scale: [f32; 16],
}

/// A cell on one axis: lower node, upper node and weight.
#[derive(Clone, Copy, Debug, Default, PartialEq)]
pub struct Cell {
    /// Lower node.
    pub x: usize,
    /// Upper node.
    pub x_n: usize,
    /// Weight of the upper node.
    pub w: f32,
}

/// The layout's rows. Refusals 1, 2, 3 and 5, in that order.
pub fn layout(grid: &Grid) -> Result<Layout, Refusal> {
    let mut rows = Layout {
        grid_strides: [0; 16],
        grid_filling_size: [0; 16],
        grid_scale: [0.0; 16],
    };
    // SAFETY: the arrays have the lengths that are asked, and each `&mut` overlaps nothing.
    let number = unsafe {
        c::tenahvar_layout(
            &grid.sizes,
            grid.n,
            grid.m,
            &mut rows.grid_strides,
            &mut rows.grid_filling_size,
            &mut rows.grid_scale,
        )
    };
    told(number).map(|()| rows)
}

/// Sets the first `m` entries of `answer` to the colour at `inputs`, and no others. An input below 0 counts as 0 and one above 1 as 1. The refusals of
/// [`layout`], then 6, 7, 8, and 16 for a NaN among the inputs.
pub fn lookup(
    grid: &Grid,
    table: &[f32],
    inputs: &[f32],
    answer: &mut [f32],
) -> Result<(), Refusal> {
    // SAFETY: each pointer goes with its slice's length, and the `&mut` overlaps nothing.
    told(unsafe {
        c::tenahvar_lookup(
            &grid.sizes,
            grid.n,
            grid.m,
            table.as_ptr(),
            table.len(),
            inputs.as_ptr(),
            inputs.len(),
            answer.as_mut_ptr(),
            answer.len(),
        )
    })
}

/// The same without the half that counts for nothing: where an ink from the fourth on falls on a grid line, so that its weight is 0, only its lower node is
/// visited. It answers the number of node reads, whatever `m` is: 2 for one ink, 4 for two, else 6 times 2 to the power of how many inks from the fourth on
/// have another weight than 0. If the first [`Grid::total`] entries are from 0 to 1, the answers equal those of [`lookup`], zeros of both signs counting as
/// equal; in other tables they need not, as an infinity or a NaN at a node that is not visited does not count. The refusals of [`lookup`].
pub fn lookup_skipping(
    grid: &Grid,
    table: &[f32],
    inputs: &[f32],
    answer: &mut [f32],
) -> Result<u32, Refusal> {
    let mut reads = 0;
    // SAFETY: each pointer goes with its slice's length, the `&mut` overlaps nothing, and `reads` is a local.
    let number = unsafe {
        c::tenahvar_lookup_skipping(
            &grid.sizes,
            grid.n,
            grid.m,
            table.as_ptr(),
            table.len(),
            inputs.as_ptr(),
            inputs.len(),
            answer.as_mut_ptr(),
            answer.len(),
            &mut reads,
        )
    };
    told(number).map(|()| reads)
}

/// The `m` entries of a node, as a part of the table. Coordinates come first ink first. The refusals of [`layout`], then 6, 7 and 10.
pub fn node<'a>(
    grid: &Grid,
    table: &'a [f32],
    coordinates: &[usize],
) -> Result<&'a [f32], Refusal> {
    let mut offset = 0;
    // SAFETY: each pointer goes with its slice's length, and `offset` is a local.
    let number = unsafe {
        c::tenahvar_node(
            &grid.sizes,
            grid.n,
            grid.m,
            table.as_ptr(),
            table.len(),
            coordinates.as_ptr(),
            coordinates.len(),
            &mut offset,
        )
    };
    told(number).map(|()| &table[offset..offset + grid.m])
}

/// Reads the CLUT element of an ICC.1 lutAToBType for `n` inks in and `m` out: sets the first entries of `entries`, as many as [`Grid::total`] of
/// the grid that it answers, and no others. That grid has the element's first `n` sizes, then zeros. Refusal 13, those of [`layout`], then 14, 15 and 8.
pub fn read_clut(element: &[u8], n: usize, m: usize, entries: &mut [f32]) -> Result<Grid, Refusal> {
    let mut grid = Grid::new(0, n, m);
    // SAFETY: each pointer goes with its slice's length, and the `&mut` overlap nothing.
    let number = unsafe {
        c::tenahvar_read_clut(
            element.as_ptr(),
            element.len(),
            n,
            m,
            &mut grid.sizes,
            entries.as_mut_ptr(),
            entries.len(),
        )
    };
    told(number).map(|()| grid)
}

/// Values of one byte (`precision` 1) or of two, the first counting most (2), as numbers from 0 to 1: `v / 255` or `v / 65535`. It sets the first `count`
/// entries of `entries` and no others. For the table of an ICC.1 lut8Type or lut16Type, and for ink codes of 8 or 16 bits. Refusals 14, 15 and 8.
pub fn read_units(
    data: &[u8],
    precision: usize,
    count: usize,
    entries: &mut [f32],
) -> Result<(), Refusal> {
    // SAFETY: each pointer goes with its slice's length, and the `&mut` overlaps nothing.
    told(unsafe {
        c::tenahvar_read_units(
            data.as_ptr(),
            data.len(),
            precision,
            count,
            entries.as_mut_ptr(),
            entries.len(),
        )
    })
}

/// Cuts out the table that remains when ink `j`, counted from 1, stands on grid line `k`, counted from 0: sets the first entries of `slab`, as many as
/// [`Grid::total`] of the grid that it answers, and no others. That grid is this one with ink `j` taken out, for lookups in the slab with the other inks'
/// inputs. The refusals of [`layout`], then 6, 11, 12 and 8.
pub fn cut_slab(
    grid: &Grid,
    table: &[f32],
    j: usize,
    k: usize,
    slab: &mut [f32],
) -> Result<Grid, Refusal> {
    // SAFETY: each pointer goes with its slice's length, and the `&mut` overlaps nothing.
    told(unsafe {
        c::tenahvar_cut_slab(
            &grid.sizes,
            grid.n,
            grid.m,
            table.as_ptr(),
            table.len(),
            j,
            k,
            slab.as_mut_ptr(),
            slab.len(),
        )
    })
    .map(|()| grid.without(j))
}

/// The cell of each 8-bit ink code on an axis of `g` lines. Refusal 3.
pub fn create_ranged_256(g: u8) -> Result<[Cell; 256], Refusal> {
    let (mut x, mut x_n, mut w) = ([0; 256], [0; 256], [0.0; 256]);
    // SAFETY: the arrays have the lengths that are asked, and are locals.
    told(unsafe { c::tenahvar_create_ranged_256(g, &mut x, &mut x_n, &mut w) })?;
    Ok(core::array::from_fn(|i| Cell {
        x: x[i],
        x_n: x_n[i],
        w: w[i],
    }))
}
