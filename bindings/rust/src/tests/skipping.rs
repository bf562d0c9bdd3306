//! Lookups that skip the half of an idle ink.

use super::{std::vec, std::vec::Vec, UNTOUCHED};
use crate::{cut_slab, lookup, lookup_skipping, Grid, Refusal};

/// Entries from 0 to 1.
fn shares(grid: &Grid) -> Vec<f32> {
    let total = grid.total().unwrap();
    (0..total).map(|e| (e * 37 % 64) as f32 / 64.0).collect()
}

/// Inks of two lines: those whose bit is set are used, the others are idle, each at one end.
fn inks(n: usize, used: usize) -> Vec<f32> {
    let idle = [0.0, 1.0, -0.0, 7.5, f32::NEG_INFINITY];
    let input = |i: usize| match used >> i & 1 {
        1 => 0.1 + i as f32 / 20.0,
        _ => idle[(i + used) % 5],
    };
    (0..n).map(input).collect()
}

/// The reads of document 02, by which inks are used.
fn right(n: usize, used: usize) -> u32 {
    match n {
        1 => 2,
        2 => 4,
        _ => 6 << (used >> 3).count_ones(),
    }
}

#[test]
fn reads_and_answers_of_every_ink_count() {
    for n in 1..=15 {
        for m in [1, 3, 4, 15] {
            let grid = Grid::new(2, n, m);
            let table = shares(&grid);
            for pattern in [0, 0x7FFF, 0x7, 0xF, 0x7FF8, 0x1249, 0x5555, 0x912, 0x7800] {
                let used = pattern & ((1 << n) - 1);
                let inputs = inks(n, used);
                let (mut answer, mut plain) = ([UNTOUCHED; 16], [UNTOUCHED; 16]);
                let reads = lookup_skipping(&grid, &table, &inputs, &mut answer);
                assert_eq!(reads, Ok(right(n, used)), "{n} inks, {used:x}");
                lookup(&grid, &table, &inputs, &mut plain).unwrap();
                assert_eq!(answer, plain, "{n} inks, {used:x}");
                assert_eq!(answer[m..], [UNTOUCHED; 16][m..]);
            }
        }
    }
}

#[test]
fn reads_by_hand() {
    let cases = [(12, 0xF, 12), (12, 0x912, 48), (12, 0xFFF, 3072)];
    for (n, used, reads) in cases.into_iter().chain([(15, 0x7FFF, 24_576), (3, 0, 6)]) {
        let grid = Grid::new(2, n, 1);
        let found = lookup_skipping(&grid, &shares(&grid), &inks(n, used), &mut [UNTOUCHED]);
        assert_eq!(found, Ok(reads), "{n} inks, {used:x}");
    }
}

/// Ink j stands on line 1 of 3: what stands on its other lines does not count. A lookup adds 0 times line 2 of inks five and up.
#[test]
fn the_half_of_an_idle_ink_does_not_count() {
    for (n, j) in (4..=8).flat_map(|n| (4..=n).map(move |j| (n, j))) {
        let grid = Grid::new(3, n, 2);
        let (mut inputs, below) = (vec![0.3; n], 3usize.pow((n - j) as u32));
        inputs[j - 1] = 0.5;
        let clean = shares(&grid);
        for bad in [f32::NAN, f32::INFINITY, f32::NEG_INFINITY] {
            let on_line = |e: usize| e / 2 / below % 3 == 1;
            let entry = |e: usize| if on_line(e) { clean[e] } else { bad };
            let table: Vec<f32> = (0..clean.len()).map(entry).collect();
            let (mut answer, mut plain) = ([UNTOUCHED; 2], [UNTOUCHED; 2]);
            let reads = lookup_skipping(&grid, &table, &inputs, &mut answer);
            assert_eq!(reads, Ok(6 << (n - 4)), "ink {j} of {n}");
            lookup(&grid, &clean, &inputs, &mut plain).unwrap();
            assert_eq!(answer, plain, "ink {j} of {n}");
            lookup(&grid, &table, &inputs, &mut plain).unwrap();
            assert_eq!(plain[0].is_nan(), j >= 5, "ink {j} of {n}");
        }
    }
}

/// The lower part's answer is taken as it stands: an infinity stays one, also where a lookup makes it a NaN. Inks one to three are not skipped.
#[test]
fn an_infinity_by_the_lower_part() {
    let grid = Grid::new(2, 4, 1);
    let table: Vec<f32> = (0..16).map(|e| [3e38, -3e38][e / 8]).collect();
    let (inputs, mut answer, mut slab) = ([0.5, 0.0, 0.0, 0.0], [UNTOUCHED], [UNTOUCHED; 8]);
    assert_eq!(lookup_skipping(&grid, &table, &inputs, &mut answer), Ok(6));
    assert_eq!(answer, [f32::NEG_INFINITY]);
    lookup(&grid, &table, &inputs, &mut answer).unwrap();
    assert!(answer[0].is_nan());
    let three = cut_slab(&grid, &table, 4, 0, &mut slab).unwrap();
    lookup(&three, &slab, &inputs[..3], &mut answer).unwrap();
    assert_eq!(answer, [f32::NEG_INFINITY]);
    for n in 1..=3 {
        let reads = lookup_skipping(
            &Grid::new(2, n, 1),
            &[f32::INFINITY; 8],
            &[0.0; 3][..n],
            &mut answer,
        );
        assert_eq!(reads, Ok(right(n, 0)));
        assert!(answer[0].is_nan());
    }
}

#[test]
fn the_least_weight_counts() {
    for n in 4..=15 {
        for ink in 3..n {
            let mut sizes = vec![1; n];
            sizes[ink] = 2;
            let grid = Grid::of_sizes(&sizes, 1);
            for (bits, reads) in [(0, 6), (0x8000_0000, 6), (1, 12), (0x3F7F_FFFF, 12)] {
                let (mut inputs, mut answer) = (vec![0.5; n], [UNTOUCHED]);
                inputs[ink] = f32::from_bits(bits);
                let found = lookup_skipping(&grid, &[0.0, 1.0], &inputs, &mut answer);
                assert_eq!(found, Ok(reads), "ink {ink} of {n}, {bits:x}");
                assert_eq!(answer, [inputs[ink]], "ink {ink} of {n}, {bits:x}");
            }
        }
    }
}

#[test]
fn refused_calls_write_nothing() {
    let mut answer = [UNTOUCHED; 3];
    for n in 1..=15 {
        let (grid, table) = (Grid::new(1, n, 2), [0.25, 0.75]);
        let (good, mut bad) = (vec![0.5; n + 1], vec![0.5; n]);
        bad[n / 2] = f32::from_bits(0x7F80_0001);
        let cases = [
            (Grid::new(1, 16, 0), &table[..1], &good[..], 1, 1),
            (Grid::new(0, n, 16), &table[..1], &good[..], 1, 2),
            (Grid::new(0, n, 2), &table[..1], &good[..], 1, 3),
            (Grid::new(255, 15, 2), &table[..1], &good[..], 1, 5),
            (grid, &table[..1], &good[..], 1, 6),
            (grid, &table, &good[..], 1, 7),
            (grid, &table, &good[..n - 1], 3, 7),
            (grid, &table, &bad[..], 1, 8),
            (grid, &table, &bad[..], 3, 16),
        ];
        for (grid, table, inputs, room, number) in cases {
            let refused = lookup_skipping(&grid, table, inputs, &mut answer[..room]);
            assert_eq!(refused.map_err(Refusal::number), Err(number), "{n} inks");
            assert_eq!(answer, [UNTOUCHED; 3]);
        }
    }
}
