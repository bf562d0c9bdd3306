//! The lookups and nodes of the list whose sizes are unequal (document 02, E5).

use crate::grids::{laid, of_counts, orders, Sizes};
use crate::list::{Asked, List, Table};
use crate::lookups::{around, each_place, good, seeded, special, total};
use crate::values::{random_inputs, skipping, special_inputs, Rng};

pub fn all(list: &mut List, rng: &mut Rng) {
    every_count(list, rng);
    every_order(list, rng);
    special_values(list, rng);
    more_lines(list, rng);
    nodes(list, rng);
    for (sizes, m) in [(&[2, 3][..], 1), (&[3, 1, 2], 2)] {
        around(list, rng, sizes, m, List::lookup);
    }
    each_place(list, rng, &[2, 4, 1, 3, 2], 3);
}

/// Random sizes of every count; those that are not in use are zeros, or anything.
fn every_count(list: &mut List, rng: &mut Rng) {
    for n in 2..=15 {
        let mut inputs = vec![0.0; n];
        for i in 0..9 {
            let m = if i == 0 { 15 } else { rng.within(1, 4) };
            let bound = rng.pick(&[300, 1_000, 3_000]);
            let sizes = of_counts(rng, n, m, bound, Sizes::Unequal);
            random_inputs(rng, &sizes, &mut inputs);
            let asked = Asked::of_counts(laid(rng, &sizes), n, m);
            let longer = rng.pick(&[0, 0, 3]);
            list.lookup(asked, &seeded(rng, total(&sizes, m) + longer), &inputs, m + rng.below(3));
        }
    }
}

/// The same sizes in every order, with one table and one colour.
fn every_order(list: &mut List, rng: &mut Rng) {
    for sizes in [&[2, 3][..], &[1, 255], &[2, 3, 4], &[1, 2, 9], &[1, 2, 3, 5]] {
        let (table, mut inputs) = (seeded(rng, total(sizes, 1)), vec![0.0; sizes.len()]);
        random_inputs(rng, &[17], &mut inputs);
        for order in orders(sizes) {
            good(list, &order, 1, &table, &inputs, 0);
        }
    }
}

/// Special inputs of each ink's own size.
fn special_values(list: &mut List, rng: &mut Rng) {
    for n in 2..=7 {
        for _ in 0..25 {
            let sizes = of_counts(rng, n, 1, 400, Sizes::Unequal);
            let inputs: Vec<f32> = sizes.iter().map(|&size| rng.pick(&special_inputs(size))).collect();
            let all = total(&sizes, 1);
            let table = if all < 40 && rng.one_in(2) { special(rng, all) } else { seeded(rng, all) };
            good(list, &sizes, 1, &table, &inputs, 0);
        }
    }
}

/// Each ink with many lines among inks of 2 and 1, just under the largest power of two: from the fifth on too, where equal sizes leave no room for it.
fn more_lines(list: &mut List, rng: &mut Rng) {
    for (n, ink) in [2, 5, 6, 8].into_iter().flat_map(|n| (0..n).map(move |ink| (n, ink))) {
        for lines in [6, 130, 255] {
            let mut sizes: Vec<u8> = (0..n).map(|i| 1 + u8::from((i + n) % 2 == 0)).collect();
            sizes[ink] = lines;
            let mut inputs = vec![0.0; n];
            random_inputs(rng, &sizes, &mut inputs);
            inputs[ink] = skipping(lines).last().copied().unwrap_or(1.0);
            good(list, &sizes, 1, &Table::Shares(total(&sizes, 1), rng.next() as u32), &inputs, 0);
        }
    }
}

/// A node anywhere and the last one; then each coordinate at its ink's own last line and one past it.
fn nodes(list: &mut List, rng: &mut Rng) {
    for n in 2..=15 {
        let m = rng.within(1, 4);
        let sizes = of_counts(rng, n, m, 1_000, Sizes::Unequal);
        let (asked, table) = (Asked::of_counts(laid(rng, &sizes), n, m), seeded(rng, total(&sizes, m)));
        let node: Vec<u32> = sizes.iter().map(|&size| rng.below(size as usize) as u32).collect();
        list.node(asked, &table, &node);
        list.node(asked, &table, &sizes.iter().map(|&size| size as u32 - 1).collect::<Vec<_>>());
        for (ink, &size) in sizes.iter().enumerate() {
            for line in [size as u32 - 1, size as u32] {
                let mut node = node.clone();
                node[ink] = line;
                list.node(asked, &table, &node);
            }
        }
        list.node(asked, &table.of_length(total(&sizes, m) - 1), &node);
        list.node(asked, &table, &node[..n - 1]);
    }
}
