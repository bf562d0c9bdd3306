//! Pyramid, prism and trilinear as the crate's text gives them.

use crate::conversions::interpolator::{
    BarycentricWeight, MultidimensionalInterpolation, Prismatic, Pyramidal, Trilinear,
};
use crate::Cell;

macro_rules! cube_sizes {
    ($($size:literal)*) => {
        /// The grid sizes that the oracle has cubes for. The crate's size is a constant, and each costs compile time.
        pub const CUBE_SIZES: &[u8] = &[$($size),*];

        fn of_method<M: Method>(cells: &[Cell; 3], g: u8, m: usize, cube: &[f32]) -> Vec<f32> {
            match g {
                $($size => M::cube::<$size>(cells, m, cube),)*
                _ => panic!("the oracle has no cube of size {g}"),
            }
        }
    };
}
cube_sizes!(1 2 3 4 5 6 7 8 9 16 17 33);

/// Each takes three cells inside the grid, a size of `CUBE_SIZES`, m of 3 or 4 and a cube of at least g³·m entries.
pub fn pyramidal(cells: &[Cell; 3], g: u8, m: usize, cube: &[f32]) -> Vec<f32> {
    of_method::<Pyramid>(cells, g, m, cube)
}
pub fn prismatic(cells: &[Cell; 3], g: u8, m: usize, cube: &[f32]) -> Vec<f32> {
    of_method::<Prism>(cells, g, m, cube)
}
pub fn trilinear(cells: &[Cell; 3], g: u8, m: usize, cube: &[f32]) -> Vec<f32> {
    of_method::<Linear>(cells, g, m, cube)
}

trait Method {
    fn cube<const G: usize>(cells: &[Cell; 3], m: usize, cube: &[f32]) -> Vec<f32>;
}
struct Pyramid;
struct Prism;
struct Linear;

macro_rules! method {
    ($method:ident, $interpolator:ident) => {
        impl Method for $method {
            fn cube<const G: usize>(cells: &[Cell; 3], m: usize, cube: &[f32]) -> Vec<f32> {
                let [r, g, b] = cells.map(|c| BarycentricWeight { x: c.x as i32, x_n: c.x_n as i32, w: c.w });
                let method = $interpolator::<G> {};
                if m == 3 {
                    method.inter3(cube, &r, &g, &b).v.to_vec()
                } else {
                    method.inter4(cube, &r, &g, &b).v.to_vec()
                }
            }
        }
    };
}
method!(Pyramid, Pyramidal);
method!(Prism, Prismatic);
method!(Linear, Trilinear);
