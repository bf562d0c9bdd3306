//! The CLUT elements of the list.

use crate::grids::{equal, laid, of_counts, orders, Sizes};
use crate::list::{List, Table};
use crate::values::Rng;
use oracle::expected;

/// An element with these sizes in use: the sizes after them, the padding and the data are anything, but not 0.
fn element(rng: &mut Rng, sizes: &[u8], precision: u8, data: usize) -> Vec<u8> {
    let mut bytes: Vec<u8> = (0..20 + data).map(|_| rng.within(1, 255) as u8).collect();
    bytes[..sizes.len()].copy_from_slice(sizes);
    bytes[16] = precision;
    bytes
}

/// A buffer with old contents by a seed.
fn old(rng: &mut Rng, len: usize) -> Table {
    Table::Bits(len, rng.next() as u32)
}

/// Reads an element into a buffer of `room` entries.
fn read(list: &mut List, rng: &mut Rng, n: usize, m: usize, room: usize, element: &[u8]) {
    list.clut(n as u32, m as u32, &old(rng, room), element);
}

pub fn all(list: &mut List, rng: &mut Rng) {
    values(list, rng);
    sizes_and_counts(list, rng);
    lengths(list, rng);
    refused_layouts(list, rng);
    order(list, rng);
    random(list, rng);
    unequal(list, rng);
}

/// All values of one byte; of two bytes those at the ends, those that differ by the order of their bytes, and 257, whose quotient a product with a
/// rounded 1/65535 misses.
fn values(list: &mut List, rng: &mut Rng) {
    let mut one = element(rng, &[16; 2], 1, 0);
    one.extend(0..=255);
    read(list, rng, 2, 1, 258, &one);
    let mut two = element(rng, &[10], 2, 0);
    two.extend([0, 1, 0x00FF, 0x0100, 0x0101, 0x7FFF, 0x8000, 0x1234, 0xFF00, 0xFFFF_u16].into_iter().flat_map(u16::to_be_bytes));
    read(list, rng, 1, 1, 12, &two);
}

/// Small sizes and counts of each sort in both precisions, with what is needed and a little more.
fn sizes_and_counts(list: &mut List, rng: &mut Rng) {
    for (g, n, m) in [(1, 1, 1), (2, 1, 1), (3, 1, 2), (4, 1, 3), (5, 1, 1), (6, 1, 1), (7, 1, 2), (8, 1, 1), (9, 1, 1), (17, 1, 1)]
        .into_iter()
        .chain([(2, 2, 3), (3, 2, 1), (4, 2, 1), (5, 2, 1), (2, 3, 3), (3, 3, 1), (2, 4, 3), (2, 5, 1), (1, 15, 1), (1, 1, 15), (1, 15, 15)])
    {
        let total = expected::total(&equal(g, n), m) as usize;
        for precision in [1, 2] {
            let (longer, after) = (rng.below(4), rng.below(4));
            let bytes = element(rng, &equal(g, n), precision, precision as usize * total + after);
            read(list, rng, n, m, total + longer, &bytes);
        }
    }
}

/// Elements and buffers at and around their lengths.
fn lengths(list: &mut List, rng: &mut Rng) {
    for (g, n, m) in [(1, 1, 1), (2, 2, 2)] {
        let total = expected::total(&equal(g, n), m) as usize;
        for precision in [1, 2] {
            let needed = 20 + precision as usize * total;
            let bytes = element(rng, &equal(g, n), precision, needed);
            for length in [0, 1, 16, 17, 19, 20, needed - 1, needed, needed + 1] {
                read(list, rng, n, m, total, &bytes[..length]);
            }
            for room in [0, total - 1, total, total + 1, total + 9] {
                read(list, rng, n, m, room, &bytes[..needed]);
            }
        }
    }
}

/// Counts, sizes, totals and precisions that are not accepted, or only just; one other size among equal ones, with data for equal ones.
fn refused_layouts(list: &mut List, rng: &mut Rng) {
    for count in [0, 1, 2, 15, 16, 17, 255, 256 + 1, 65_536 + 1, u32::MAX as usize] {
        let bytes = element(rng, &[1; 16], 1, 16);
        read(list, rng, count, 1, 2, &bytes);
        read(list, rng, 1, count, 16, &bytes);
    }
    for (place, size) in [(0, 0), (1, 0), (2, 0), (3, 0), (0, 3), (1, 3), (2, 3), (3, 3), (15, 0)] {
        let mut bytes = element(rng, &[2; 3], 1, 8);
        bytes[place] = size;
        read(list, rng, 3, 1, 8, &bytes);
    }
    for (g, n, m) in [(255, 4, 2), (255, 4, 1), (4, 15, 4), (4, 15, 3), (4, 15, 2), (255, 15, 15), (2, 15, 15)] {
        for precision in [1, 2] {
            let bytes = element(rng, &equal(g, n), precision, 4);
            read(list, rng, n, m, 3, &bytes);
        }
    }
    for precision in [0, 1, 2, 3, 4, 16, 127, 128, 129, 254, 255] {
        let bytes = element(rng, &[2; 2], precision, 12);
        read(list, rng, 2, 1, 5, &bytes);
    }
}

/// Every pair of faults, with equal and with unequal sizes: the first in the order 13, 1, 2, 3, 5, 14, 15, 8 is told.
fn order(list: &mut List, rng: &mut Rng) {
    for (first, second) in (0..7).flat_map(|first| (first + 1..8).map(move |second| (first, second))) {
        let (mut n, mut m, mut precision, mut length, mut room) = (3, 2, 2, 52, 16);
        let mut sizes = equal(2, 15);
        if rng.one_in(2) {
            sizes[1..3].copy_from_slice(&[1, 4]);
        }
        for fault in [second, first] {
            match fault {
                0 => length = 19,
                1 => n = rng.pick(&[0, 16]),
                2 => m = rng.pick(&[0, 16]),
                3 => sizes[1] = 0,
                4 => {
                    n = 15;
                    sizes[3..].fill(255);
                }
                5 => precision = rng.pick(&[0, 3, 255]),
                6 => length = rng.pick(&[20, 51]),
                _ => room = 15,
            }
        }
        let bytes = element(rng, &sizes, precision, 32);
        read(list, rng, n, m, room, &bytes[..length]);
    }
}

/// Random elements with a length and a buffer at, one below or one above what is needed, some with a byte of the head changed.
fn random(list: &mut List, rng: &mut Rng) {
    for _ in 0..40 {
        let (n, m) = (rng.within(1, 4), rng.within(1, 4));
        let g = rng.within(1, if n < 3 { 3 } else { 2 }) as u8;
        let (precision, total) = (rng.within(1, 2), expected::total(&equal(g, n), m) as usize);
        let near = rng.pick(&[0, 1, 1, 2]);
        let mut bytes = element(rng, &equal(g, n), precision as u8, precision * total + near - near.min(1));
        if rng.one_in(4) {
            bytes[rng.below(17)] = rng.below(4) as u8;
        }
        if near == 0 {
            bytes.pop();
        }
        let room = total + rng.pick(&[0, 1, 1, 4]) - rng.below(2).min(total);
        read(list, rng, n, m, room, &bytes);
    }
}

/// Unequal sizes in every order and of every count, the unused ones zeros or anything; a length and a buffer at and one below what is needed.
fn unequal(list: &mut List, rng: &mut Rng) {
    for (sizes, precision) in [&[2, 3][..], &[1, 9], &[1, 2, 3]].into_iter().flat_map(orders).flat_map(|sizes| [(sizes.clone(), 1), (sizes, 2)]) {
        let total = expected::total(&sizes, 1) as usize;
        let bytes = element(rng, &sizes, precision, precision as usize * total);
        read(list, rng, sizes.len(), 1, total + 1, &bytes);
        read(list, rng, sizes.len(), 1, total, &bytes[..bytes.len() - 1]);
        read(list, rng, sizes.len(), 1, total - 1, &bytes);
    }
    for n in 2..=15 {
        let (m, precision) = (rng.within(1, 3), rng.within(1, 2));
        let sizes = of_counts(rng, n, m, 48, Sizes::Unequal);
        let (all, total) = (laid(rng, &sizes), expected::total(&sizes, m) as usize);
        let bytes = element(rng, &all, precision as u8, precision * total);
        read(list, rng, n, m, total, &bytes);
    }
}
