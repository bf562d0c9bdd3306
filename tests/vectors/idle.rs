//! The lookups with skipping of the list (document 02, E6), with idle inks: those whose weight is 0.

use crate::grids::{equal, laid, sizes_for, visited};
use crate::list::{Asked, List, Table};
use crate::lookups::{around, seeded, special, total};
use crate::nans::beside;
use crate::values::{idle_or_active, with_idle, Rng, STRANGE};
use oracle::{definition, expected};

pub fn all(list: &mut List, rng: &mut Rng) {
    every_count(list, rng);
    every_set(list, rng);
    four_active(list, rng);
    smallest(list, rng);
    special_entries(list, rng);
    around(list, rng, &[2; 4], 3, List::skipping);
    beside(list, rng, &[1, 2, 2, 1, 3], 1, List::skipping);
    each_place(list, rng);
}

/// Every count of inks: all idle, some, and of up to eight none; sizes of any sort.
fn every_count(list: &mut List, rng: &mut Rng) {
    for n in 1..=15 {
        for set in [(1 << n) - 1, rng.below(1 << n), rng.below(1 << n), 0].into_iter().take(if n < 9 { 4 } else { 3 }) {
            let (sizes, m) = (sizes_for(rng, n, set, 2_000), rng.within(1, 4));
            if total(&sizes, m) < 20_000 {
                let (table, inputs) = (seeded(rng, total(&sizes, m)), with_idle(rng, &sizes, set));
                list.skipping(Asked::of_counts(laid(rng, &sizes), n, m), &table, &inputs, m + rng.below(3));
            }
        }
    }
}

/// Six inks on two lines, every set of idle ones from the fourth on; the first three idle and not.
fn every_set(list: &mut List, rng: &mut Rng) {
    for set in 0..8 {
        for first in [0, 7, rng.below(8)] {
            let (table, inputs) = (seeded(rng, total(&equal(2, 6), 2)), with_idle(rng, &equal(2, 6), set << 3 | first));
            list.skipping(Asked::whole(&equal(2, 6), 2), &table, &inputs, 2);
        }
    }
}

/// Four of twelve inks and of fifteen, the first, the last and any; then all of fifteen, the most reads.
fn four_active(list: &mut List, rng: &mut Rng) {
    for (n, m) in [(12, 3), (15, 1)] {
        for first in [0, n - 4, rng.within(1, n - 5)] {
            let inputs: Vec<f32> = (0..n).map(|ink| if (first..first + 4).contains(&ink) { rng.unit() } else { 0.0 }).collect();
            list.skipping(Asked::whole(&equal(2, n), m), &Table::Shares(total(&equal(2, n), m), rng.next() as u32), &inputs, m);
        }
    }
    let inputs = with_idle(rng, &equal(2, 15), 0);
    assert_eq!(definition::closed_count(&[2; 15], &inputs), 24_576);
    list.skipping(Asked::whole(&equal(2, 15), 1), &Table::Shares(total(&equal(2, 15), 1), rng.next() as u32), &inputs, 1);
}

/// The fourth and the fifth ink at inputs around a line: the smallest floats, the first ones above and below, and what is rounded onto it.
fn smallest(list: &mut List, rng: &mut Rng) {
    for (ink, size) in [(3, 2), (3, 255), (4, 2), (4, 4), (4, 255)] {
        let (mut sizes, line) = (equal(2, ink + 1), 1.0 / f32::from(size - 1));
        sizes[ink] = size;
        let beside = [0, 1, 0x0080_0000, 0x8000_0000, 0x8000_0001].into_iter().chain(line.to_bits() - 2..=line.to_bits() + 2);
        for bits in beside {
            let mut inputs = with_idle(rng, &sizes, 1 << 3);
            inputs[ink] = f32::from_bits(bits);
            list.skipping(Asked::whole(&sizes, 1), &seeded(rng, total(&sizes, 1)), &inputs, 1);
        }
    }
}

/// Entries of every sort; then NaN, infinities and the largest numbers at nodes that are not to be visited; and a zero with a minus sign.
fn special_entries(list: &mut List, rng: &mut Rng) {
    for round in 0..48 {
        let sizes = [&[2, 1, 2, 2, 2][..], &[1, 1, 1, 2, 3, 2], &[2, 2, 2, 2], &[1, 1, 1, 3, 3, 2, 2]][round % 4];
        let set = rng.below(1 << sizes.len()) | 1 << (sizes.len() - 1);
        let inputs = with_idle(rng, sizes, set);
        let table = if round % 3 == 0 { special(rng, total(sizes, 1)) } else { strange(rng, sizes, &inputs) };
        list.skipping(Asked::whole(sizes, 1), &table, &inputs, 1);
    }
    // Each step from the lowest corner goes down by the smallest float, and its term is rounded to −0.0.
    let words: Vec<u32> = (0..32u32).map(|entry| 0x8000_0000 + (entry >> 2).count_ones()).collect();
    for last in [true, false] {
        let inputs = [0.25, 0.125, 0.375, -0.0, idle_or_active(rng, 2, last)];
        list.skipping(Asked::whole(&[2; 5], 1), &Table::Words(words.clone()), &inputs, 1);
    }
}

/// A share at each node that is to be visited, and at all others what would show.
fn strange(rng: &mut Rng, sizes: &[u8], inputs: &[f32]) -> Table {
    let mut words: Vec<u32> = (0..total(sizes, 1)).map(|_| rng.pick(&STRANGE).to_bits()).collect();
    visited(sizes, inputs).into_iter().for_each(|node| words[node] = rng.unit().to_bits());
    Table::Words(words)
}

/// Every place of a record set to another value; and refused layouts, which leave the record of zeros.
fn each_place(list: &mut List, rng: &mut Rng) {
    let sizes = [2, 3, 1, 2, 2];
    let (whole, table) = (Asked::whole(&sizes, 2), seeded(rng, total(&sizes, 2)));
    for (place, value) in expected::record(&whole.sizes, 5, 2).into_iter().enumerate() {
        let value = value ^ 1 << rng.below(if (48..64).contains(&place) { 8 } else { 32 });
        list.skipping(Asked { place: place as u32, value, ..whole }, &table, &with_idle(rng, &sizes, 1 << 4), 2);
    }
    for (g, n, m) in [(2, 0, 1), (2, 16, 1), (2, 3, 0), (2, 3, 16), (0, 3, 3), (255, 5, 1)] {
        list.skipping(Asked::of_counts([g; 16], n, m), &Table::Shares(100, 1), &[0.5; 3], 3);
    }
}
