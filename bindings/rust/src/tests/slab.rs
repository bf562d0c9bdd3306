//! Slabs.

use super::{std::vec, std::vec::Vec, UNTOUCHED};
use crate::{cut_slab, lookup, Grid};

/// A table whose entry e is e.
fn counted(entries: usize) -> Vec<f32> {
    (0..entries).map(|e| e as f32).collect()
}

#[test]
fn the_slab_of_each_ink() {
    // g 3, n 2, m 2: node a, b has the entries 6a + 2b and 6a + 2b + 1.
    let (grid, table) = (Grid::new(3, 2, 2), counted(19));
    let cases = [
        (1, 0, [0.0, 1.0, 2.0, 3.0, 4.0, 5.0]),
        (1, 2, [12.0, 13.0, 14.0, 15.0, 16.0, 17.0]),
        (2, 0, [0.0, 1.0, 6.0, 7.0, 12.0, 13.0]),
        (2, 1, [2.0, 3.0, 8.0, 9.0, 14.0, 15.0]),
    ];
    for (j, k, entries) in cases {
        let mut slab = [UNTOUCHED; 8];
        let smaller = cut_slab(&grid, &table, j, k, &mut slab).unwrap();
        assert_eq!(smaller, Grid::new(3, 1, 2));
        assert_eq!(smaller.total(), Ok(6));
        assert_eq!(slab[..6], entries, "ink {j} at line {k}");
        assert_eq!(slab[6..], [UNTOUCHED; 2]);
        assert_eq!(
            cut_slab(&grid, &table[..18], j, k, &mut slab[..6]),
            Ok(smaller)
        );
    }
}

#[test]
fn entries_are_copied_bit_for_bit() {
    let bits = [0x7FA0_1234, 0xFFC0_5678, 0x8000_0000, 0x0000_0001];
    let table = bits.map(f32::from_bits);
    for k in 0..2 {
        let mut slab = [UNTOUCHED; 2];
        cut_slab(&Grid::new(2, 2, 1), &table, 2, k, &mut slab).unwrap();
        assert_eq!(slab.map(f32::to_bits), [bits[k], bits[k + 2]]);
    }
}

#[test]
fn refused_cuts_write_nothing() {
    let (grid, one) = (Grid::new(2, 3, 2), Grid::new(2, 1, 2));
    let far = 1 << 32;
    let cases = [
        (Grid::new(2, 0, 0), 0, 0, 9, 0, 1),
        (Grid::new(2, 16, 2), 0, 0, 9, 0, 1),
        (Grid::new(2, 3, 16), 0, 0, 9, 0, 2),
        (Grid::new(0, 3, 2), 0, 0, 9, 0, 3),
        (Grid::new(4, 15, 4), 0, 0, 9, 0, 5),
        (grid, 15, 0, 2, 0, 6),
        (grid, 15, 1, 0, 8, 6),
        (grid, 16, 0, 2, 0, 11),
        (grid, 16, 4, 0, 8, 11),
        (grid, 16, far + 1, 0, 8, 11),
        (one, 4, 1, 0, 8, 11),
        (one, 4, 1, 2, 0, 11),
        (grid, 16, 1, 2, 0, 12),
        (grid, 16, 3, 2, 8, 12),
        (grid, 16, 3, far, 8, 12),
        (grid, 16, 3, 1, 7, 8),
        (grid, 16, 1, 0, 0, 8),
    ];
    let table = counted(16);
    for (grid, entries, j, k, room, number) in cases {
        let mut slab = [UNTOUCHED; 8];
        let refusal = cut_slab(&grid, &table[..entries], j, k, &mut slab[..room]).unwrap_err();
        assert_eq!(refusal.number(), number, "{grid:?}, {entries}, {j}, {k}");
        assert_eq!(slab, [UNTOUCHED; 8]);
    }
    for (j, k) in [(1, 0), (3, 1)] {
        let mut slab = [UNTOUCHED; 8];
        assert!(cut_slab(&grid, &table, j, k, &mut slab).is_ok());
        assert!(!slab.contains(&UNTOUCHED));
    }
}

/// An ink from the fourth on stands on a line: it can be left out, ink 5 just under a line or not.
#[test]
fn a_lookup_in_the_slab_is_the_lookup_with_the_ink_on_its_line() {
    for (n, j, line) in [(4, 4, 0), (4, 4, 1), (4, 4, 2), (5, 5, 1), (5, 4, 1)] {
        let grid = Grid::new(3, n, 1);
        let table: Vec<f32> = counted(grid.total().unwrap())
            .iter()
            .map(|e| e * 37.0 % 64.0 / 64.0)
            .collect();
        let mut inputs = vec![0.3, 0.8, 0.55, 0.1, f32::from_bits(0x3EFF_FFFF)];
        inputs.truncate(n);
        inputs[j - 1] = line as f32 / 2.0;
        let mut others = inputs.clone();
        others.remove(j - 1);
        let (mut whole, mut fewer) = ([UNTOUCHED], [UNTOUCHED]);
        let mut slab = vec![UNTOUCHED; 100];
        let smaller = cut_slab(&grid, &table, j, line, &mut slab).unwrap();
        lookup(&grid, &table, &inputs, &mut whole).unwrap();
        lookup(&smaller, &slab, &others, &mut fewer).unwrap();
        assert_eq!(whole, fewer, "ink {j} of {n}, line {line}");
    }
}
