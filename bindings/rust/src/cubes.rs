//! The three cube methods.

use crate::{c, refusal::told, Cell, Refusal};

/// A colour in a cube of `g` lines on each axis with `m` entries at each node, by the pyramid method: it sets the first `m` entries of
/// `answer` and no others. Refusals 2, 3, 6, 8 and 10.
pub fn pyramidal(
    cells: &[Cell; 3],
    g: u8,
    m: usize,
    cube: &[f32],
    answer: &mut [f32],
) -> Result<(), Refusal> {
    in_cube(c::tenahvar_pyramidal, cells, g, m, cube, answer)
}

/// The same by the prism method.
pub fn prismatic(
    cells: &[Cell; 3],
    g: u8,
    m: usize,
    cube: &[f32],
    answer: &mut [f32],
) -> Result<(), Refusal> {
    in_cube(c::tenahvar_prismatic, cells, g, m, cube, answer)
}

/// The same by the trilinear method.
pub fn trilinear(
    cells: &[Cell; 3],
    g: u8,
    m: usize,
    cube: &[f32],
    answer: &mut [f32],
) -> Result<(), Refusal> {
    in_cube(c::tenahvar_trilinear, cells, g, m, cube, answer)
}

fn in_cube(
    method: c::CubeMethod,
    cells: &[Cell; 3],
    g: u8,
    m: usize,
    cube: &[f32],
    answer: &mut [f32],
) -> Result<(), Refusal> {
    let (x, x_n, w) = (cells.map(|c| c.x), cells.map(|c| c.x_n), cells.map(|c| c.w));
    // SAFETY: each pointer goes with its slice's length, and the `&mut` overlaps nothing.
    told(unsafe {
        method(
            &x,
            &x_n,
            &w,
            g,
            m,
            cube.as_ptr(),
            cube.len(),
            answer.as_mut_ptr(),
            answer.len(),
        )
    })
}
