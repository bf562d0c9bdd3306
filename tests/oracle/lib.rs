//! The oracle: the crate's own text of `md_lut.rs` and `interpolator.rs`, compiled unchanged by path, over stand-ins
//! for what it imports. The stand-ins have the meanings that document 01 fixes: every product, sum and difference is
//! rounded once, in the order written, and nothing is fused.
//!
//! `rust_lookup`, `layout`, `weights`, `pyramidal`, `prismatic` and `trilinear` give the crate's answers for accepted calls. `lookup` gives
//! what the library owes: the crate's answers, and where demand 2 leaves those out, or sizes are unequal, the answers of `definition`, which
//! has the lookup with skipping (document 02, E6) too.
//! The refusals are not the crate's: `expected` has them, in the words of document 01's table; `clut` has document 02's CLUT elements,
//! `units` the values in them, `slab` its slabs and `files` its table files.

mod answers;
pub mod clut;
mod cubes;
pub mod definition;
mod demand;
pub mod expected;
pub mod files;
#[macro_use]
mod sizes;
pub mod slab;
pub mod units;
mod weights;

pub use answers::{layout, rust_blend, rust_lookup, Lut, Strides};
pub use cubes::{prismatic, pyramidal, trilinear, CUBE_SIZES};
pub use demand::{excepted, lookup, one_size, parted, passes, same, skips};
pub use weights::weights;

/// One axis of a cell: lower node, upper node and weight.
#[derive(Clone, Copy, Debug, Default)]
pub struct Cell {
    pub x: usize,
    pub x_n: usize,
    pub w: f32,
}

/// The crate's text. The build script writes the two `#[path]` lines to a file of its own.
#[allow(dead_code, unused_imports, unused_variables)]
mod conversions {
    pub(crate) mod lut_transforms {
        pub(crate) const LUT_SAMPLING: u16 = 255;
    }
    include!(env!("ORACLE_TEXT"));
}

mod math {
    pub(crate) trait FusedMultiplyAdd<T> {
        fn mla(&self, b: T, c: T) -> T;
    }
    pub(crate) trait FusedMultiplyNegAdd<T> {
        fn neg_mla(&self, b: T, c: T) -> T;
    }
}

mod mlaf {
    use std::ops::{Add, Mul, Neg};

    /// s + a·b: the product rounded, then the sum.
    #[inline(always)]
    pub(crate) fn mlaf<T: Mul<Output = T> + Add<Output = T>>(s: T, a: T, b: T) -> T {
        s + a * b
    }

    /// s − a·b: the product rounded, then the difference. (s + (−p) is s − p for every s and p.)
    #[inline(always)]
    pub(crate) fn neg_mlaf<T: Mul<Output = T> + Add<Output = T> + Neg<Output = T>>(s: T, a: T, b: T) -> T {
        s + -(a * b)
    }

    /// a·b + c: the product rounded, then the sum.
    #[inline(always)]
    pub(crate) fn fmla<T: Mul<Output = T> + Add<Output = T>>(a: T, b: T, c: T) -> T {
        a * b + c
    }
}

mod nd_array {
    use crate::math::{FusedMultiplyAdd, FusedMultiplyNegAdd};

    pub(crate) trait ArrayFetch<T> {
        fn fetch(&self, x: i32, y: i32, z: i32) -> T;
    }

    /// (a − a·t) + b·t.
    #[inline(always)]
    pub(crate) fn lerp<T: Copy + FusedMultiplyAdd<T> + FusedMultiplyNegAdd<T>>(a: T, b: T, t: T) -> T {
        a.neg_mla(a, t).mla(b, t)
    }
}

/// N numbers, worked one by one.
#[derive(Clone, Copy, Debug)]
pub(crate) struct Vector<T, const N: usize> {
    pub(crate) v: [T; N],
}
pub(crate) type Vector3f = Vector<f32, 3>;
pub(crate) type Vector4f = Vector<f32, 4>;
pub(crate) type Vector3i = Vector<i32, 3>;

use std::array::from_fn;
use std::ops::{Add, Mul, Sub};

impl<const N: usize> From<f32> for Vector<f32, N> {
    fn from(value: f32) -> Self {
        Vector { v: [value; N] }
    }
}
impl<const N: usize> Add for Vector<f32, N> {
    type Output = Self;
    fn add(self, b: Self) -> Self {
        Vector { v: from_fn(|i| self.v[i] + b.v[i]) }
    }
}
impl<const N: usize> Sub for Vector<f32, N> {
    type Output = Self;
    fn sub(self, b: Self) -> Self {
        Vector { v: from_fn(|i| self.v[i] - b.v[i]) }
    }
}
impl<const N: usize> Mul for Vector<f32, N> {
    type Output = Self;
    fn mul(self, b: Self) -> Self {
        Vector { v: from_fn(|i| self.v[i] * b.v[i]) }
    }
}
impl<const N: usize> Mul<f32> for Vector<f32, N> {
    type Output = Self;
    fn mul(self, b: f32) -> Self {
        Vector { v: from_fn(|i| self.v[i] * b) }
    }
}
impl<const N: usize> math::FusedMultiplyAdd<Vector<f32, N>> for Vector<f32, N> {
    fn mla(&self, b: Self, c: Self) -> Self {
        Vector { v: from_fn(|i| mlaf::mlaf(self.v[i], b.v[i], c.v[i])) }
    }
}
impl<const N: usize> math::FusedMultiplyNegAdd<Vector<f32, N>> for Vector<f32, N> {
    fn neg_mla(&self, b: Self, c: Self) -> Self {
        Vector { v: from_fn(|i| mlaf::neg_mlaf(self.v[i], b.v[i], c.v[i])) }
    }
}
