//! What an accepted lookup is held to (demand 2, as document 02's E4 and E5 have it): with equal sizes the crate's answers, except where the rounded p+1
//! skips a node and that is still at or below g−1, for some ink from the fifth on. There, and with unequal sizes, it is the definition. No input is a
//! NaN: such a lookup is refused (E8).

use crate::definition::{self, product};

/// The size that all inks have; none where sizes are unequal.
pub fn one_size(sizes: &[u8]) -> Option<u8> {
    sizes.first().copied().filter(|&g| sizes.iter().all(|&size| size == g))
}

/// Whether the rounded p+1 skips a node: its whole part is above the whole part of p plus 1.
pub fn passes(p: f32) -> bool {
    (p + 1.0) as usize > p as usize + 1
}

/// Whether p+1 skips a node with this input, and is still at or below g−1.
pub fn skips(g: u8, x: f32) -> bool {
    let p = product(g, x);
    passes(p) && (p + 1.0) as usize <= g as usize - 1
}

/// Whether demand 2 leaves the crate's answer with equal sizes out: some ink from the fifth on skips a node.
pub fn excepted(g: u8, inputs: &[f32]) -> bool {
    inputs.iter().skip(4).any(|&x| skips(g, x))
}

/// The m answers that an accepted lookup owes; `sizes` are those in use.
pub fn lookup(sizes: &[u8], m: usize, table: &[f32], inputs: &[f32]) -> Vec<f32> {
    match one_size(sizes) {
        Some(g) if !excepted(g, inputs) => crate::rust_lookup(g, sizes.len(), m, table, inputs),
        _ => definition::lookup(sizes, m, table, inputs),
    }
}

/// Of an accepted lookup with equal sizes that is excepted, whether the crate's answers are others; none of every other.
pub fn parted(sizes: &[u8], m: usize, table: &[f32], inputs: &[f32]) -> Option<bool> {
    let g = one_size(sizes).filter(|&g| excepted(g, inputs))?;
    Some(!same(&lookup(sizes, m, table, inputs), &crate::rust_lookup(g, sizes.len(), m, table, inputs)))
}

/// Whether answers are the same bit for bit, NaN without its payload.
pub fn same(one: &[f32], other: &[f32]) -> bool {
    one.len() == other.len() && one.iter().zip(other).all(|(x, y)| x.to_bits() == y.to_bits() || x.is_nan() && y.is_nan())
}
