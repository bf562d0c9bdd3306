//! The values without a header of the list.

use crate::list::{List, Table};
use crate::values::Rng;

/// Reads values of `data` into a buffer of `room` entries, with old contents by a seed.
fn read(list: &mut List, rng: &mut Rng, precision: u32, count: u32, room: usize, data: &[u8]) {
    list.units(precision, count, &Table::Bits(room, rng.next() as u32), data);
}

/// Bytes that are anything but 0.
fn bytes(rng: &mut Rng, len: usize) -> Vec<u8> {
    (0..len).map(|_| rng.within(1, 255) as u8).collect()
}

pub fn all(list: &mut List, rng: &mut Rng) {
    values(list, rng);
    counts(list, rng);
    lengths(list, rng);
    precisions_and_counts(list, rng);
    order(list, rng);
    random(list, rng);
}

/// All values of one byte; of two those at the ends, those that differ by the order of their bytes, 257, whose quotient a product with
/// a rounded 1/65535 misses, and some more.
fn values(list: &mut List, rng: &mut Rng) {
    read(list, rng, 1, 256, 258, &(0..=255).collect::<Vec<u8>>());
    let two = [0, 1, 2, 0x00FF, 0x0100, 0x0101, 0x7FFF, 0x8000, 0x8001, 0x1234, 0x3412, 0xFF00, 0xFFFE, 0xFFFF_u16];
    read(list, rng, 2, 14, 15, &two.map(u16::to_be_bytes).concat());
    for _ in 0..4 {
        let data = bytes(rng, 128);
        read(list, rng, 2, 64, 64, &data);
    }
}

/// Every count up to 20 in both precisions, with what is needed and a little more.
fn counts(list: &mut List, rng: &mut Rng) {
    for (count, precision) in (0..=20).flat_map(|count| [(count, 1), (count, 2)]) {
        let (longer, after) = (rng.below(4), rng.below(4));
        let data = bytes(rng, precision * count + after);
        read(list, rng, precision as u32, count as u32, count + longer, &data);
    }
}

/// Data and buffers at and around their lengths.
fn lengths(list: &mut List, rng: &mut Rng) {
    for (count, precision) in [1, 2, 9].into_iter().flat_map(|count| [(count, 1), (count, 2)]) {
        let needed = precision * count;
        let data = bytes(rng, needed + 1);
        for length in [0, needed - 1, needed, needed + 1] {
            read(list, rng, precision as u32, count as u32, count, &data[..length]);
        }
        for room in [0, count - 1, count + 1, count + 9] {
            read(list, rng, precision as u32, count as u32, room, &data[..needed]);
        }
    }
}

/// Precisions that are neither 1 nor 2, and counts that are too large; some would not be if they, or twice them, were cut to fewer bits.
fn precisions_and_counts(list: &mut List, rng: &mut Rng) {
    let data = bytes(rng, 12);
    let half = 1 << 31;
    for precision in [0, 3, 4, 16, 127, 128, 254, 255, 256, 257, 258, 65_536 + 1, 65_536 + 2, half, half + 1, half + 2, u32::MAX] {
        read(list, rng, precision, 5, 6, &data);
    }
    for count in [13, 256, 256 + 3, 65_536, 65_536 + 3, half - 1, half, half + 3, u32::MAX - 1, u32::MAX] {
        read(list, rng, 1, count, 6, &data);
        read(list, rng, 2, count, 6, &data);
    }
}

/// Every choice of faults: the first in the order 14, 15, 8 is told.
fn order(list: &mut List, rng: &mut Rng) {
    for (wrong, short, narrow) in (0..8).map(|faults| (faults & 1 > 0, faults & 2 > 0, faults & 4 > 0)) {
        for precision in [1, 2] {
            let data = bytes(rng, 4 * precision - usize::from(short));
            let precision = if wrong { rng.pick(&[0, 3, 255, 257]) } else { precision as u32 };
            read(list, rng, precision, 4, 4 - usize::from(narrow), &data);
        }
    }
}

/// Random calls with a length and a buffer at, one below or one above what is needed.
fn random(list: &mut List, rng: &mut Rng) {
    for _ in 0..50 {
        let (precision, count) = (rng.within(1, 2), rng.within(1, 24));
        let near = |rng: &mut Rng, exact: usize| exact + rng.pick(&[0, 1, 1, 2]) - 1;
        let (length, room) = (near(rng, precision * count), near(rng, count));
        let data = bytes(rng, length);
        read(list, rng, precision as u32, count as u32, room, &data);
    }
}
