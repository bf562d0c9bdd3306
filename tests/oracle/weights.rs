//! Weights for 8-bit codes as the crate's text gives them.

use crate::conversions::interpolator::BarycentricWeight;
use crate::Cell;

/// The crate's 256 weights for a grid size of 1 to 255.
pub fn weights(g: u8) -> Vec<Cell> {
    assert!(g > 0, "the crate's weights are asked for a grid size of at least 1");
    with_size!(g, of_size())
}

#[inline(never)]
fn of_size<const GRID_SIZE: usize>() -> Vec<Cell> {
    let weights = BarycentricWeight::<f32>::create_ranged_256::<GRID_SIZE>();
    weights.iter().map(|c| Cell { x: c.x as usize, x_n: c.x_n as usize, w: c.w }).collect()
}
