//! A size for each ink.

use super::{std::vec, std::vec::Vec, UNTOUCHED};
use crate::{cut_slab, layout, lookup, node, read_clut, Grid, Refusal};

/// A table whose entry e is e.
fn counted(grid: &Grid) -> Vec<f32> {
    (0..grid.total().unwrap()).map(|e| e as f32).collect()
}

#[test]
fn strides_are_of_the_sizes_after_an_ink() {
    let rows = |sizes: &[u8], m| layout(&Grid::of_sizes(sizes, m)).unwrap();
    assert_eq!(rows(&[2, 3], 1).grid_strides[..3], [3, 1, 1]);
    assert_eq!(rows(&[3, 2], 1).grid_strides[..3], [2, 1, 1]);
    let four = rows(&[5, 1, 4, 2], 3);
    assert_eq!(four.grid_strides[..5], [8, 8, 2, 1, 1]);
    assert_eq!(four.grid_filling_size[..5], [24, 24, 6, 3, 1]);
    assert_eq!(four.grid_scale[..5], [4.0, 0.0, 3.0, 1.0, 0.0]);
}

#[test]
fn totals_are_products_of_the_sizes() {
    let total = |sizes: &[u8], m| Grid::of_sizes(sizes, m).total();
    assert_eq!(total(&[5, 1, 4, 2], 3), Ok(120));
    assert_eq!(total(&[127, 113, 215, 232, 6], 1), Ok(4_294_967_280));
    assert_eq!(total(&[127, 113, 215, 233, 6], 1), Err(Refusal::LargeTotal));
    assert_eq!(total(&[128, 64, 32, 16, 8, 4, 4], 7), Ok(3_758_096_384));
    assert_eq!(
        total(&[128, 64, 32, 16, 8, 4, 4], 8),
        Err(Refusal::LargeTotal)
    );
    assert_eq!(total(&[2, 0], 1), Err(Refusal::ZeroSize));
    assert_eq!(total(&[], 1), Err(Refusal::InputInks));
    assert_eq!(total(&[2; 20], 1), Err(Refusal::InputInks));
}

#[test]
fn sizes_past_the_inks_do_not_count() {
    let grid = Grid::of_sizes(&[2, 3], 1);
    assert_eq!(Grid::of_sizes(&[2, 2], 1), Grid::new(2, 2, 1));
    for unused in [0, 1, 255] {
        let mut other = Grid {
            sizes: [unused; 16],
            ..grid
        };
        other.sizes[..2].copy_from_slice(&[2, 3]);
        assert_eq!(layout(&other), layout(&grid));
        assert_eq!(other.total(), Ok(6));
        let mut answer = [UNTOUCHED];
        lookup(&other, &counted(&grid), &[1.0, 0.5], &mut answer).unwrap();
        assert_eq!(answer, [4.0]);
    }
}

/// The entries are a linear function of the inks, so that a colour is the sum over them of p times the stride.
#[test]
fn colours_by_own_sizes() {
    let cases: [(&[u8], &[f32], f32); 5] = [
        (&[2, 3], &[0.5, 0.25], 2.0),
        (&[3, 2], &[0.25, 0.5], 1.5),
        (&[2, 3, 5], &[0.5, 0.25, 0.625], 12.5),
        (&[5, 1, 4, 2], &[0.625, 0.5, 1.0, 0.5], 26.5),
        (&[2, 2, 2, 3, 5], &[0.5, 0.5, 0.5, 0.25, 0.125], 55.5),
    ];
    for (sizes, inputs, colour) in cases {
        let grid = Grid::of_sizes(sizes, 1);
        let mut answer = [UNTOUCHED; 2];
        lookup(&grid, &counted(&grid), inputs, &mut answer).unwrap();
        assert_eq!(answer, [colour, UNTOUCHED], "{sizes:?} {inputs:?}");
    }
}

#[test]
fn a_node_by_own_sizes() {
    let grid = Grid::of_sizes(&[2, 3], 2);
    let table = counted(&grid);
    assert_eq!(node(&grid, &table, &[1, 2]), Ok(&[10.0, 11.0][..]));
    assert_eq!(node(&grid, &table, &[1, 3]), Err(Refusal::OutsideGrid));
    assert_eq!(node(&grid, &table, &[2, 0]), Err(Refusal::OutsideGrid));
    assert_eq!(node(&grid, &table[..11], &[0, 0]), Err(Refusal::ShortTable));
}

#[test]
fn a_clut_by_own_sizes() {
    let mut element = vec![9; 20];
    element[..2].copy_from_slice(&[2, 3]);
    element[16] = 1;
    element.extend((0..12).map(|v| v * 17));
    let mut entries = [UNTOUCHED; 13];
    let grid = read_clut(&element, 2, 2, &mut entries).unwrap();
    assert_eq!(grid, Grid::of_sizes(&[2, 3], 2));
    assert_eq!(entries[12], UNTOUCHED);
    assert_eq!(
        node(&grid, &entries, &[1, 1]),
        Ok(&[136.0 / 255.0, 153.0 / 255.0][..])
    );
    assert_eq!(
        read_clut(&element[..31], 2, 2, &mut entries),
        Err(Refusal::ShortData)
    );
    assert_eq!(
        read_clut(&element, 2, 2, &mut entries[..11]),
        Err(Refusal::ShortAnswer)
    );
}

#[test]
fn the_cut_ink_is_taken_out_of_the_sizes() {
    let (grid, table) = (
        Grid::of_sizes(&[2, 3, 4], 1),
        counted(&Grid::of_sizes(&[2, 3, 4], 1)),
    );
    let cases: [(usize, usize, [u8; 2], &[f32]); 3] = [
        (1, 1, [3, 4], &table[12..]),
        (
            2,
            2,
            [2, 4],
            &[8.0, 9.0, 10.0, 11.0, 20.0, 21.0, 22.0, 23.0],
        ),
        (3, 3, [2, 3], &[3.0, 7.0, 11.0, 15.0, 19.0, 23.0]),
    ];
    for (j, k, sizes, entries) in cases {
        let mut slab = [UNTOUCHED; 13];
        let smaller = cut_slab(&grid, &table, j, k, &mut slab).unwrap();
        assert_eq!(smaller, Grid::of_sizes(&sizes, 1));
        assert_eq!(slab[..entries.len()], *entries, "ink {j} at line {k}");
        assert_eq!(slab[entries.len()], UNTOUCHED);
        assert_eq!(
            cut_slab(&grid, &table, j, k + 1, &mut slab),
            Err(Refusal::NoSuchLine)
        );
        assert_eq!(
            cut_slab(&grid, &table, j, k, &mut slab[..entries.len() - 1]),
            Err(Refusal::ShortAnswer)
        );
    }
}

/// Fifteen inks in use leave the sixteenth size, which may be anything, behind the fourteenth of the slab's.
#[test]
fn an_unused_size_moves_up_as_well() {
    let mut grid = Grid::new(1, 15, 1);
    grid.sizes[15] = 200;
    let smaller = cut_slab(&grid, &[0.5], 1, 0, &mut [0.0]).unwrap();
    assert_eq!(
        (smaller.n, smaller.sizes[13..].to_vec()),
        (14, vec![1, 200, 0])
    );
    assert_eq!(smaller.total(), Ok(1));
}

#[test]
fn a_lookup_in_the_slab_has_the_other_sizes() {
    let sizes = [2, 3, 4, 3, 2];
    let grid = Grid::of_sizes(&sizes, 1);
    let table: Vec<f32> = counted(&grid)
        .iter()
        .map(|e| e * 37.0 % 64.0 / 64.0)
        .collect();
    for (j, line) in [(4, 0), (4, 1), (4, 2), (5, 0), (5, 1)] {
        let mut inputs = vec![0.3, 0.8, 0.55, 0.1, 0.7];
        inputs[j - 1] = line as f32 / (sizes[j - 1] - 1) as f32;
        let (mut whole, mut fewer) = ([UNTOUCHED], [UNTOUCHED]);
        let mut slab = vec![UNTOUCHED; 72];
        let smaller = cut_slab(&grid, &table, j, line, &mut slab).unwrap();
        lookup(&grid, &table, &inputs, &mut whole).unwrap();
        inputs.remove(j - 1);
        lookup(&smaller, &slab, &inputs, &mut fewer).unwrap();
        assert_eq!(whole, fewer, "ink {j}, line {line}");
    }
}
