//! Layouts and lookups as the crate's text gives them.

use crate::conversions::md_lut::*;
use crate::expected::Record;

/// The three arrays of the crate's layout record.
#[derive(Clone, Debug, PartialEq)]
pub struct Strides {
    pub grid_strides: [u32; 16],
    pub grid_filling_size: [u32; 16],
    pub grid_scale: [f32; 16],
}

/// The crate's record for an accepted layout: `new` panics or wraps on others. With unequal sizes it has the crate's own strides, not ICC.1's.
pub fn layout(sizes: [u8; 16], n: usize, m: usize) -> Strides {
    let lut = MultidimensionalLut::new(sizes, n, m);
    Strides {
        grid_strides: lut.grid_strides,
        grid_filling_size: lut.grid_filling_size,
        grid_scale: lut.grid_scale,
    }
}

type Call = fn(&MultidimensionalLut, &[f32], &[f32], &mut [f32]);

/// A layout with the crate's lookup for its counts, made once for many lookups.
pub struct Lut {
    lut: MultidimensionalLut,
    call: Call,
}

impl Lut {
    pub fn new(g: u8, n: usize, m: usize) -> Lut {
        Lut::of_sizes([g; 16], n, m)
    }

    /// The crate takes unequal sizes too, by its own strides.
    pub fn of_sizes(sizes: [u8; 16], n: usize, m: usize) -> Lut {
        Lut { lut: MultidimensionalLut::new(sizes, n, m), call: call(n, m) }
    }

    /// The crate's lookup over the rows of a record, which has ICC.1's strides with unequal sizes too.
    fn of_record(record: &Record) -> Lut {
        let row = |from: usize| std::array::from_fn(|ink| record[from + ink]);
        let (n, m) = (record[64] as usize, record[65] as usize);
        let lut = MultidimensionalLut { grid_strides: row(0), grid_filling_size: row(16), grid_scale: row(32).map(f32::from_bits), output_inks: m };
        Lut { lut, call: call(n, m) }
    }

    /// The crate's answer at exactly these inputs, in the first m entries of `answer`.
    #[inline]
    pub fn lookup(&self, table: &[f32], inputs: &[f32], answer: &mut [f32]) {
        (self.call)(&self.lut, table, inputs, answer)
    }
}

/// Rust leaves the sign of `(-0.0).max(0.0)` open, and document 01 clips both zeros to +0.0: so the crate's text is
/// given +0.0 for −0.0. Every other input goes to it as it is.
fn zero_unsigned(input: f32) -> f32 {
    if input == 0.0 { 0.0 } else { input }
}

/// The crate's m answers for an accepted call: n 1..15, m 1..15, a table of at least gⁿ·m entries, n inputs that are numbers.
pub fn rust_lookup(g: u8, n: usize, m: usize, table: &[f32], inputs: &[f32]) -> Vec<f32> {
    answers(&Lut::new(g, n, m), m, table, inputs)
}

/// What the crate's lookup answers for an accepted record where its own strides do not count: its cells and its blending.
pub fn rust_blend(record: &Record, table: &[f32], inputs: &[f32]) -> Vec<f32> {
    answers(&Lut::of_record(record), record[65] as usize, table, inputs)
}

fn answers(lut: &Lut, m: usize, table: &[f32], inputs: &[f32]) -> Vec<f32> {
    let inputs: Vec<f32> = inputs.iter().map(|&x| zero_unsigned(x)).collect();
    let mut answer = vec![0.0; m];
    lut.lookup(table, &inputs, &mut answer);
    answer
}

/// The crate's lookup for n inks, one of its fifteen functions.
fn run<const M: usize>(n: usize) -> Call {
    macro_rules! by_inks {
        ($($count:literal => $linear:ident)*) => {
            match n {
                $($count => |lut, table, inputs, answer| answer[..M].copy_from_slice(&$linear::<M>(lut, table, inputs).v),)*
                _ => panic!("the crate has no lookup for {n} inks"),
            }
        };
    }
    by_inks! {
        1 => linear_1i_vec3f 2 => linear_2i_vec3f_direct 3 => linear_3i_vec3f_direct 4 => linear_4i_vec3f
        5 => linear_5i_vec3f 6 => linear_6i_vec3f 7 => linear_7i_vec3f 8 => linear_8i_vec3f
        9 => linear_9i_vec3f 10 => linear_10i_vec3f 11 => linear_11i_vec3f 12 => linear_12i_vec3f
        13 => linear_13i_vec3f 14 => linear_14i_vec3f 15 => linear_15i_vec3f
    }
}

/// The same with the output count, a constant in the crate.
fn call(n: usize, m: usize) -> Call {
    macro_rules! by_outputs {
        ($($count:literal)*) => { match m { $($count => run::<$count>(n),)* _ => panic!("no lookup gives {m} outputs") } };
    }
    by_outputs!(1 2 3 4 5 6 7 8 9 10 11 12 13 14 15)
}
