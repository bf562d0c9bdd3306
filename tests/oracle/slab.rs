//! Slabs in the words of document 01 and of document 02 (E1, E5). The crate has no such call, so nothing of it is used here.

use crate::expected::{self, Record};

/// What cutting leaves: the number, and the slab buffer.
#[derive(Clone, Debug)]
pub struct Cut {
    pub number: u32,
    pub slab: Vec<f32>,
}

/// The sizes of the slab's inks: ink j's is taken out, and those after it move up.
pub fn without(sizes: &[u8], j: usize) -> Vec<u8> {
    [&sizes[..j - 1], &sizes[j..]].concat()
}

/// The table, the ink, the line and the buffer: 6, 11, 12, 8.
fn lent(sizes: &[u8], m: usize, table: usize, j: usize, k: usize, room: usize) -> u32 {
    if (table as u128) < expected::total(sizes, m) {
        return 6; // table shorter than the total
    }
    if sizes.len() == 1 || j < 1 || j > sizes.len() {
        return 11; // j is not an ink, or n is 1
    }
    if k >= sizes[j - 1] as usize {
        return 12; // k is not below ink j's size
    }
    if (room as u128) < expected::total(&without(sizes, j), m) {
        return 8; // a buffer shorter than the slab's total
    }
    0
}

/// A cut that lays out first: the layout's, then 6, 11, 12, 8.
pub fn number(sizes: &[u8; 16], n: usize, m: usize, table: usize, j: usize, k: usize, room: usize) -> u32 {
    match expected::layout(sizes, n, m) {
        0 => lent(&sizes[..n], m, table, j, k, room),
        refused => refused,
    }
}

/// A cut with a record: 9, 6, 11, 12, 8.
pub fn record_number(record: &Record, table: usize, j: usize, k: usize, room: usize) -> u32 {
    expected::accepted(record).map_or(9, |(sizes, m)| lent(&sizes, m, table, j, k, room))
}

/// The slab of ink j at line k: for each node of the other inks, in their old order, the entries of the node whose coordinate for ink j is k.
pub fn entries(sizes: &[u8], m: usize, table: &[f32], j: usize, k: usize) -> Vec<f32> {
    let left = without(sizes, j);
    let mut slab = Vec::with_capacity(expected::total(&left, m) as usize);
    let (mut others, mut whole) = (vec![0; left.len()], vec![k; sizes.len()]);
    loop {
        whole[..j - 1].copy_from_slice(&others[..j - 1]);
        whole[j..].copy_from_slice(&others[j - 1..]);
        slab.extend_from_slice(&table[expected::node_offset(sizes, m, &whole)..][..m]);
        if !expected::advance(&mut others, &left) {
            return slab;
        }
    }
}

/// Cuts into a buffer that held `old`: the first entries, as many as the slab's total, are set, no others.
pub fn cut(sizes: &[u8; 16], n: usize, m: usize, table: &[f32], j: usize, k: usize, old: &[f32]) -> Cut {
    let mut cut = Cut { number: number(sizes, n, m, table.len(), j, k, old.len()), slab: old.to_vec() };
    if cut.number == 0 {
        let slab = entries(&sizes[..n], m, table, j, k);
        cut.slab[..slab.len()].copy_from_slice(&slab);
    }
    cut
}
