//! The slabs of the list.

use crate::grids::{equal, of_counts, orders, padded, Sizes};
use crate::list::{List, Table};
use crate::values::{Rng, ENTRIES};
use oracle::expected::{self, Record};
use oracle::slab;

/// A cut that may be changed: the record, the lengths of table and buffer, the ink and the line.
#[derive(Clone, Copy)]
struct Cut {
    record: Record,
    table: usize,
    j: u32,
    k: u32,
    room: usize,
}

/// The record of a layout with one size, zeros where it is refused.
fn laid(g: u8, n: usize, m: usize) -> Record {
    expected::record(&[g; 16], n, m)
}

/// A cut with exact lengths; where ink j is not there the buffer is as for the last.
fn good(sizes: &[u8], m: usize, j: u32, k: u32) -> Cut {
    let n = sizes.len();
    let left = slab::without(sizes, if (1..=n).contains(&(j as usize)) { j as usize } else { n });
    let [table, room] = [sizes, &left].map(|sizes| expected::total(sizes, m) as usize);
    Cut { record: expected::record(&padded(sizes), n, m), table, j, k, room }
}

/// Puts a cut on the list. The table is by seed or, where it is short, at times of special entries; the buffer's old contents are by seed.
fn put(list: &mut List, rng: &mut Rng, cut: Cut) {
    let seed = rng.next() as u32;
    let table = match rng.below(3) {
        0 if cut.table < 40 => Table::Words((0..cut.table).map(|_| rng.pick(&ENTRIES)).collect()),
        0 | 1 => Table::Shares(cut.table, seed),
        _ => Table::Bits(cut.table, seed),
    };
    list.slab(&cut.record, &table, cut.j, cut.k, &Table::Bits(cut.room, rng.next() as u32));
}

pub fn all(list: &mut List, rng: &mut Rng) {
    every(list, rng);
    limits(list, rng);
    damaged(list, rng);
    order(list, rng);
    random(list, rng);
    unequal(list, rng);
    rows(list, rng);
}

/// Every ink and line of small grids, at times with a longer table or buffer; one ink of more at a line.
fn every(list: &mut List, rng: &mut Rng) {
    for (g, n, m) in [(1, 2, 1), (2, 2, 1), (3, 2, 3), (5, 2, 2), (2, 3, 2), (3, 3, 1), (2, 4, 3), (2, 5, 1), (1, 15, 2)] {
        for (j, k) in (1..=n as u32).flat_map(|j| (0..g as u32).map(move |k| (j, k))) {
            let cut = good(&equal(g, n), m, j, k);
            let (table, room) = (cut.table + rng.pick(&[0, 0, 3]), cut.room + rng.pick(&[0, 0, 2]));
            put(list, rng, Cut { table, room, ..cut });
        }
    }
    for (g, n, m, j, k) in [(199, 2, 1, 2, 198), (17, 3, 1, 2, 16), (4, 4, 3, 3, 1), (2, 9, 1, 4, 1), (2, 10, 1, 10, 0), (1, 15, 15, 8, 0)] {
        put(list, rng, good(&equal(g, n), m, j, k));
    }
}

/// Table, ink, line and buffer at and around their limits, and layouts of one ink.
fn limits(list: &mut List, rng: &mut Rng) {
    for (g, n, m) in [(2, 2, 2), (3, 3, 1)] {
        let cut = good(&equal(g, n), m, n as u32, g as u32 - 1);
        for table in [0, cut.table - 1, cut.table + 1] {
            put(list, rng, Cut { table, ..cut });
        }
        for j in [0, n as u32 + 1, 15, 16, 255, 256 + 1, 65_536 + 1, u32::MAX] {
            put(list, rng, Cut { j, ..cut });
        }
        for k in [g as u32, g as u32 + 1, 255, 256, 65_536, u32::MAX] {
            put(list, rng, Cut { k, ..cut });
        }
        for room in [0, cut.room - 1, cut.room + 1, cut.table] {
            put(list, rng, Cut { room, ..cut });
        }
    }
    for (g, m) in [(1, 1), (2, 2)] {
        for (j, k) in [(0, 0), (1, 0), (1, g as u32), (2, 0)] {
            put(list, rng, good(&[g], m, j, k));
        }
    }
    // A refused layout leaves the zero record, which is refused 9.
    for (g, n, m) in [(2, 0, 1), (2, 16, 1), (2, 3, 0), (2, 3, 16), (0, 3, 3), (4, 15, 4)] {
        put(list, rng, Cut { record: laid(g, n, m), ..good(&[2; 3], 1, 1, 0) });
    }
    for (g, n, m) in [(4, 15, 3), (255, 4, 1)] {
        put(list, rng, Cut { record: laid(g, n, m), ..good(&[2; 3], 1, 1, 0) });
    }
}

/// Every place of a record damaged; places of one layout's record and the others of another's.
fn damaged(list: &mut List, rng: &mut Rng) {
    let cut = good(&[2; 3], 2, 2, 1);
    for place in 0..66 {
        let (mut record, value) = (cut.record, cut.record[place]);
        record[place] = if (32..48).contains(&place) { rng.pick(&[0x8000_0000, 0x7FC0_0000, value ^ 1]) } else { value ^ 1 << rng.below(8) };
        put(list, rng, Cut { record, ..cut });
    }
    for (g, n, m) in [(3, 3, 2), (2, 4, 2), (2, 3, 1)] {
        for place in [16, 32, 48, 64, 65] {
            let mut record = laid(g, n, m);
            record[..place].copy_from_slice(&cut.record[..place]);
            put(list, rng, Cut { record, ..cut });
        }
    }
    // A grid of size 1 with one output: n inks, but every other place as for two; then with as many sizes, which is a layout's record again.
    for inks in [0, 1, 2, 5, 15, 16] {
        let mut cut = good(&[1; 2], 1, 2, 0);
        cut.record[64] = inks;
        put(list, rng, cut);
        cut.record[48..][..inks.min(16) as usize].fill(1);
        put(list, rng, cut);
    }
}

/// Every pair of faults: the first in the order 9, 6, 11, 12, 8 is told.
fn order(list: &mut List, rng: &mut Rng) {
    for (first, second) in (0..4).flat_map(|first| (first + 1..5).map(move |second| (first, second))) {
        for (g, n, m) in [(2, 2, 3), (3, 3, 1)] {
            let mut cut = good(&equal(g, n), m, 1, 0);
            for fault in [first, second] {
                match fault {
                    0 => cut.record[20] = 7,
                    1 => cut.table -= 1,
                    2 => cut.j = rng.pick(&[0, n as u32 + 1]),
                    3 => cut.k = g as u32,
                    _ => cut.room -= 1,
                }
            }
            put(list, rng, cut);
        }
    }
}

/// Random cuts, some with an ink, a line, a table or a buffer that is one off, or a record with a place damaged.
fn random(list: &mut List, rng: &mut Rng) {
    for _ in 0..30 {
        let (n, m) = (rng.within(2, 5), rng.within(1, 4));
        let g = rng.within(1, if n < 4 { 4 } else { 2 }) as u8;
        let mut cut = good(&equal(g, n), m, rng.within(1, n) as u32, rng.below(g as usize) as u32);
        match rng.below(10) {
            0 => cut.j = rng.pick(&[0, n as u32 + 1]),
            1 => cut.k += g as u32,
            2 => cut.table -= 1,
            3 => cut.room -= 1,
            4 => cut.record[rng.pick(&[0, 17, 33, 48, 50, 64, 65])] ^= 1,
            _ => cut.room += rng.below(4),
        }
        put(list, rng, cut);
    }
}

/// Unequal sizes: each ink at its own last line and one past it, with larger and smaller inks beside it; a short buffer; every count.
fn unequal(list: &mut List, rng: &mut Rng) {
    for sizes in [&[2, 3][..], &[1, 7], &[2, 3, 4]].into_iter().flat_map(orders) {
        for (j, &size) in (1..).zip(&sizes) {
            let m = rng.within(1, 2);
            let cut = good(&sizes, m, j, size as u32 - 1);
            put(list, rng, cut);
            put(list, rng, Cut { k: size as u32, ..cut });
            put(list, rng, Cut { room: cut.room - 1, ..cut });
        }
    }
    for (n, m) in (2..=15).flat_map(|n| [(n, 1), (n, 2)]) {
        let sizes = of_counts(rng, n, m, 200, Sizes::Unequal);
        let j = rng.within(1, n);
        let (own, other) = (sizes[j - 1] as u32, rng.pick(&sizes) as u32);
        for k in [rng.below(own as usize) as u32, other] {
            put(list, rng, good(&sizes, m, j as u32, k));
        }
    }
}

/// Records whose rows do not belong together: sizes that changed places or are others, in use or not, while strides and scales stay.
fn rows(list: &mut List, rng: &mut Rng) {
    for sizes in [&[2, 3][..], &[3, 2, 2], &[1, 2, 3, 2]] {
        let cut = good(sizes, 2, 1, 0);
        let n = sizes.len();
        let mut put_sizes = |change: &dyn Fn(&mut [u32])| {
            let mut record = cut.record;
            change(&mut record[48..64]);
            put(list, rng, Cut { record, ..cut });
        };
        put_sizes(&|row| row.swap(0, 1));
        put_sizes(&|row| row.swap(0, n - 1));
        put_sizes(&|row| row[0] += 1);
        put_sizes(&|row| row[n - 1] = 0);
        put_sizes(&|row| row[n] = 1);
        put_sizes(&|row| row[15] = 1);
        put_sizes(&|row| row[n..].fill(sizes[0] as u32));
        // Sizes and scales that changed places together: only the strides are left to tell.
        let mut record = cut.record;
        record.swap(48, 49);
        record.swap(32, 33);
        put(list, rng, Cut { record, ..cut });
    }
}
