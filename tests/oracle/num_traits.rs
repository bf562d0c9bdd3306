//! A stand-in for the two traits of `num_traits` that the crate's text imports, so that no registry is needed.
//! Document 01's helpers round the product and then the sum, so the fused step is named here and never taken.

/// The bound that the text puts on its elements.
pub trait MulAdd<A = Self, B = Self> {
    type Output;
    fn mul_add(self, a: A, b: B) -> Self::Output;
}

impl MulAdd for f32 {
    type Output = f32;
    fn mul_add(self, _: f32, _: f32) -> f32 {
        unreachable!("document 01 fuses no product with a sum")
    }
}

/// A plain `as` between primitive types.
pub trait AsPrimitive<T: 'static + Copy>: 'static + Copy {
    fn as_(self) -> T;
}
