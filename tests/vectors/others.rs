//! The layouts, weights and cubes of the list.

use crate::grids::{laid, of_counts, Sizes};
use crate::list::{List, Table};
use crate::values::{Rng, SPECIAL};
use oracle::expected;

/// Document 01's layouts, every count at its limits, the largest total for each count, other sizes and zeros among equal ones.
pub fn layouts(list: &mut List, rng: &mut Rng) {
    let mut of = |g: u8, n: u32, m: u32| list.layout(&[g; 16], n, m);
    for (g, n, m) in [(17, 4, 3), (4, 15, 3), (4, 15, 4), (255, 4, 1), (255, 4, 2)] {
        of(g, n, m);
    }
    for n in [0, 1, 2, 15, 16, 17, 255, 256 + 3, 65_536 + 3, u32::MAX] {
        for m in [0, 1, 3, 15, 16, 17, 256 + 3, u32::MAX] {
            of(2, n, m);
        }
    }
    for n in 1..=15 {
        for m in [1, 4, 15] {
            let largest = (1..=255u8).take_while(|&g| expected::layout(&[g; 16], n, m) == 0).last().unwrap_or(1);
            for g in [largest, largest.saturating_add(1)] {
                of(g, n as u32, m as u32);
            }
        }
    }
    for _ in 0..60 {
        let mut sizes = [rng.pick(&[1, 2, 3, 84, 255]); 16];
        for _ in 0..rng.within(1, 3) {
            sizes[rng.below(16)] = rng.pick(&[0, 1, 2, 4, 255]);
        }
        list.layout(&sizes, rng.within(1, 15) as u32, rng.within(1, 15) as u32);
    }
    unequal_layouts(list, rng);
}

/// Document 02's layouts (E5), zeros in use and not, totals around the largest, and random sizes in every count.
fn unequal_layouts(list: &mut List, rng: &mut Rng) {
    for used in [[2, 3], [3, 2], [0, 2], [2, 0], [1, 255], [255, 1]] {
        let mut zeros = [0; 16];
        zeros[..2].copy_from_slice(&used);
        list.layout(&zeros, 2, 1);
        list.layout(&laid(rng, &used), 2, rng.within(1, 15) as u32);
    }
    let limits: [(&[u8], u32); 8] = [
        (&[254, 226, 215, 174], 2), (&[2, 174, 215, 226, 254], 1), (&[254, 226, 215, 174], 3), (&[16, 128, 128, 128, 128], 1), (&[15, 128, 128, 128, 128], 1),
        (&[4, 4, 4, 4, 4, 4, 4, 8, 4, 4, 4, 4, 4, 4, 4], 1), (&[4, 4, 4, 4, 4, 4, 4, 8, 4, 4, 4, 4, 4, 4, 4], 2), (&[128, 128, 128, 2, 128, 128, 128, 128, 128, 128], 1),
    ];
    for (used, m) in limits {
        list.layout(&laid(rng, used), used.len() as u32, m);
    }
    for n in 2..=15 {
        for _ in 0..5 {
            let m = rng.within(1, 15);
            let bound = rng.pick(&[1_000, expected::LARGEST_TOTAL, 8 * expected::LARGEST_TOTAL]);
            let used = of_counts(rng, n, m, bound, Sizes::Unequal);
            list.layout(&laid(rng, &used), n as u32, m as u32);
        }
    }
}

/// Every size by checksum, some weights by themselves, and the whole 33-point constant.
pub fn weights(list: &mut List, rng: &mut Rng) {
    for g in 0..=255 {
        list.all_weights(g);
    }
    for (g, index) in [(33, 128), (33, 255), (1, 200), (0, 0), (0, 255), (2, 255), (255, 1), (255, 254), (255, 255)] {
        list.weight(g, index);
    }
    for _ in 0..120 {
        list.weight(rng.within(1, 255) as u8, rng.below(256) as u32);
    }
    for index in 0..256 {
        list.constant(index);
    }
}

fn weight(rng: &mut Rng) -> f32 {
    match rng.below(5) {
        0 => f32::from_bits(rng.pick(&SPECIAL)),
        1 => rng.pick(&[0.25, 0.5, 0.75]),
        2 => rng.bits(),
        _ => rng.unit(),
    }
}

/// Document 01's P9, then random cells: weights of every sort, ties, reversed cells; then every pair of faults.
pub fn cubes(list: &mut List, rng: &mut Rng) {
    let corner = Table::Words((0..24).map(|i| if i < 21 { 0 } else { 0x3F80_0000 }).collect());
    for kind in 6..=8 {
        list.cube(kind, [0; 3], [1; 3], [0.5, 0.25, 0.75], 2, 3, &corner, 3);
    }
    for i in 0..220 {
        let g = if i % 20 == 0 { 16 } else if i % 20 == 10 { 17 } else { rng.within(1, 8) as u8 };
        let m = rng.within(3, 4) as u32;
        let all = expected::total(&[g; 3], m as usize) as usize;
        let seed = rng.next() as u32;
        let table = if rng.one_in(4) { Table::Bits(all, seed) } else { Table::Shares(all + rng.below(2), seed) };
        let node = |rng: &mut Rng| rng.below(g as usize) as u32;
        let x = [node(rng), node(rng), node(rng)];
        let x_n = if rng.one_in(3) { [node(rng), node(rng), node(rng)] } else { x.map(|k| (k + 1).min(g as u32 - 1)) };
        let mut w = [weight(rng), weight(rng), weight(rng)];
        if rng.one_in(3) {
            w[rng.below(3)] = w[rng.below(3)];
        }
        for kind in 6..=8 {
            list.cube(kind, x, x_n, w, g, m, &table, m as usize + i % 3);
        }
    }
    for (first, second) in (0..6).flat_map(|first| (0..6).map(move |second| (first, second))) {
        for kind in 6..=8 {
            refused(list, rng, kind, [first, second]);
        }
    }
}

/// Two faults of one cube, or one twice.
fn refused(list: &mut List, rng: &mut Rng, kind: u32, faults: [u32; 2]) {
    let (g, m) = (rng.within(1, 3) as u8, rng.within(3, 4) as u32);
    let (mut size, mut outputs, mut short, mut answer) = (g, m, 0, m as usize);
    let (mut x, mut x_n) = ([0; 3], [g as u32 - 1; 3]);
    for fault in faults {
        match fault {
            0 => outputs = rng.pick(&[0, 1, 2, 5, 15, 259, u32::MAX]),
            1 => size = 0,
            2 => short = 1,
            3 => answer = rng.pick(&[0, m as usize - 1]),
            4 => x[rng.below(3)] = rng.pick(&[g as u32, 255, 256, u32::MAX]),
            _ => x_n[rng.below(3)] = rng.pick(&[g as u32, 255, 256, u32::MAX]),
        }
    }
    let table = Table::Shares(expected::total(&[g; 3], m as usize) as usize - short, 5);
    list.cube(kind, x, x_n, [0.5, 0.25, 0.75], size, outputs, &table, answer);
}
