//! Numbers, records and node offsets in document 01's own words, with a size for each ink (document 02, E5). Nothing here is taken from the crate,
//! which panics or wraps where document 01 refuses.

/// The largest total of an accepted layout.
pub const LARGEST_TOTAL: u128 = 4_294_967_295;

/// The product of the sizes times m, exact for up to fifteen sizes and m up to 15.
pub fn total(sizes: &[u8], m: usize) -> u128 {
    sizes.iter().fold(m as u128, |product, &size| product * size as u128)
}

/// A layout checks 1, 2, 3, 5 in that order. Only the first n sizes count.
pub fn layout(sizes: &[u8; 16], n: usize, m: usize) -> u32 {
    if n < 1 || n > 15 {
        return 1; // n outside 1..15
    }
    if m < 1 || m > 15 {
        return 2; // m outside 1..15
    }
    if sizes[..n].iter().any(|&size| size == 0) {
        return 3; // a size in use is 0
    }
    if total(&sizes[..n], m) > LARGEST_TOTAL {
        return 5; // total above 4,294,967,295
    }
    0
}

/// IEEE 754: whether the bits are a NaN's, all ones in the exponent and a fraction that is not 0, with either sign.
pub fn is_nan(input: f32) -> bool {
    let bits = input.to_bits();
    bits >> 23 & 0xFF == 0xFF && bits & 0x7F_FFFF != 0
}

/// The table, the inputs and the answer buffer: 6, 7, 8, and 16 (document 02, E8).
fn lent(sizes: &[u8], m: usize, table: usize, inputs: &[f32], answer: usize) -> u32 {
    if (table as u128) < total(sizes, m) {
        return 6; // table shorter than the total
    }
    if inputs.len() != sizes.len() {
        return 7; // number of inputs is not n
    }
    if answer < m {
        return 8; // answer buffer shorter than m
    }
    if inputs.iter().any(|&input| is_nan(input)) {
        return 16; // some input is NaN
    }
    0
}

/// A lookup that lays out first: the layout's, then 6, 7, 8, 16.
pub fn lookup(sizes: &[u8; 16], n: usize, m: usize, table: usize, inputs: &[f32], answer: usize) -> u32 {
    match layout(sizes, n, m) {
        0 => lent(&sizes[..n], m, table, inputs, answer),
        refused => refused,
    }
}

/// The table and the coordinates: 6, 7, 10.
fn lent_node(sizes: &[u8], m: usize, table: usize, coordinates: &[usize]) -> u32 {
    if (table as u128) < total(sizes, m) {
        return 6; // table shorter than the total
    }
    if coordinates.len() != sizes.len() {
        return 7; // number of node coordinates is not n
    }
    if coordinates.iter().zip(sizes).any(|(&k, &size)| k >= size as usize) {
        return 10; // a node coordinate is not below its ink's size
    }
    0
}

/// A node reader that lays out first: the layout's, then 6, 7, 10.
pub fn node(sizes: &[u8; 16], n: usize, m: usize, table: usize, coordinates: &[usize]) -> u32 {
    match layout(sizes, n, m) {
        0 => lent_node(&sizes[..n], m, table, coordinates),
        refused => refused,
    }
}

/// Where a node's m entries start: ICC.1, the first input channel varies least rapidly, the last most rapidly.
pub fn node_offset(sizes: &[u8], m: usize, coordinates: &[usize]) -> usize {
    coordinates.iter().zip(sizes).fold(0, |node, (&k, &size)| node * size as usize + k) * m
}

/// Moves on to a grid's next node, the last ink most rapidly; false after the last node.
pub fn advance(node: &mut [usize], sizes: &[u8]) -> bool {
    for (coordinate, &size) in node.iter_mut().zip(sizes).rev() {
        *coordinate += 1;
        if *coordinate < size as usize {
            return true;
        }
        *coordinate = 0;
    }
    false
}

/// Weights: 3 when g is 0.
pub fn weights(g: u8) -> u32 {
    if g == 0 { 3 } else { 0 }
}

/// A cube method checks 2, 3, 6, 8, 10.
pub fn cube(x: &[usize; 3], x_n: &[usize; 3], g: u8, m: usize, cube: usize, answer: usize) -> u32 {
    if m != 3 && m != 4 {
        return 2; // m not 3 or 4
    }
    if g == 0 {
        return 3; // the size is 0
    }
    if (cube as u128) < total(&[g; 3], m) {
        return 6; // table shorter than the total
    }
    if answer < m {
        return 8; // answer buffer shorter than m
    }
    if x.iter().chain(x_n).any(|&k| k >= g as usize) {
        return 10; // a cell's x or x_n outside 0..g−1
    }
    0
}

/// A layout record as 66 words: 16 `grid_strides`, 16 `grid_filling_size`, 16 `grid_scale` as bits, 16 `grid_sizes`, n, m.
pub type Record = [u32; 66];

/// The record of a layout; zeros where it is refused.
pub fn record(sizes: &[u8; 16], n: usize, m: usize) -> Record {
    let mut record = [0; 66];
    if layout(sizes, n, m) != 0 {
        return record;
    }
    // Unused places hold 1, 1, +0.0 and 0.
    record[..32].fill(1);
    for (ink, &size) in sizes[..n].iter().enumerate() {
        let after = &sizes[ink + 1..n];
        record[ink] = total(after, 1) as u32;
        record[16 + ink] = total(after, m) as u32;
        record[32 + ink] = f32::from(size - 1).to_bits();
        record[48 + ink] = size as u32;
    }
    record[64..].copy_from_slice(&[n as u32, m as u32]);
    record
}

/// The sizes in use and m of a record that is bit for bit what a layout of its own sizes, n and m gives; none for refusal 9.
pub fn accepted(record: &Record) -> Option<(Vec<u8>, usize)> {
    let sizes = std::array::from_fn(|ink| record[48 + ink] as u8);
    let (n, m) = (record[64] as usize, record[65] as usize);
    (layout(&sizes, n, m) == 0 && self::record(&sizes, n, m) == *record).then(|| (sizes[..n].to_vec(), m))
}

/// A lookup with a record: 9, 6, 7, 8, 16.
pub fn record_lookup(record: &Record, table: usize, inputs: &[f32], answer: usize) -> u32 {
    accepted(record).map_or(9, |(sizes, m)| lent(&sizes, m, table, inputs, answer))
}

/// A node reader with a record: 9, 6, 7, 10.
pub fn record_node(record: &Record, table: usize, coordinates: &[usize]) -> u32 {
    accepted(record).map_or(9, |(sizes, m)| lent_node(&sizes, m, table, coordinates))
}
