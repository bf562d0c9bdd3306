//! The sizes of random calls: one size for all inks, or unequal ones.

use crate::values::Rng;
use oracle::definition::{on_line, product};
use oracle::{expected::total, one_size};

/// Whether the inks of a call have one size or unequal ones.
#[derive(Clone, Copy, PartialEq)]
pub enum Sizes {
    Equal,
    Unequal,
}

/// One size for n inks.
pub fn equal(g: u8, n: usize) -> Vec<u8> {
    vec![g; n]
}

/// Sixteen sizes of which these are in use: after them stands the first one again.
pub fn padded(sizes: &[u8]) -> [u8; 16] {
    std::array::from_fn(|ink| sizes.get(ink).copied().unwrap_or(sizes[0]))
}

/// Sixteen sizes of which these are in use: after them stand zeros, or anything.
pub fn laid(rng: &mut Rng, sizes: &[u8]) -> [u8; 16] {
    let zeros = rng.one_in(3);
    std::array::from_fn(|ink| sizes.get(ink).copied().unwrap_or(if zeros { 0 } else { rng.next() as u8 }))
}

/// Sizes and an output count whose table has at most about `bound` entries.
pub fn grid(rng: &mut Rng, bound: u128, sizes: Sizes) -> (Vec<u8>, usize) {
    let fewest = if sizes == Sizes::Equal { 1 } else { 2 };
    let n = match rng.below(256) {
        0 => rng.within(9, 15),
        1..=40 => rng.within(5, 8),
        _ => rng.within(fewest, 4),
    };
    let m = if rng.one_in(4) { rng.within(1, 15) } else { rng.within(1, 4) };
    (of_counts(rng, n, m, bound, sizes), m)
}

/// Sizes for these counts, by the same bound; equal sizes of many inks have another (15 inks need 2^15 entries for g 2).
pub fn of_counts(rng: &mut Rng, n: usize, m: usize, bound: u128, sizes: Sizes) -> Vec<u8> {
    if sizes == Sizes::Unequal {
        return unequal(rng, n, bound / m as u128);
    }
    let bound = if n > 8 { 40_000 } else { bound };
    equal(rng.within(1, largest(n, bound / m as u128)) as u8, n)
}

/// The largest size with which n inks have at most so many nodes; at least 1.
fn largest(n: usize, nodes: u128) -> usize {
    (2..=255).take_while(|&g| total(&equal(g, n), 1) <= nodes).last().unwrap_or(1) as usize
}

/// Unequal sizes of two or more inks with at most about so many nodes, the large ones at any ink.
fn unequal(rng: &mut Rng, n: usize, nodes: u128) -> Vec<u8> {
    let (sort, mut room) = (rng.below(4), nodes.max(1));
    let mut sizes = equal(rng.within(1, largest(n, nodes)) as u8, n);
    for ink in (0..n).filter(|_| sort > 0) {
        sizes[ink] = drawn(rng, sort, room, n - ink);
        room /= sizes[ink] as u128;
    }
    shuffle(rng, &mut sizes);
    // One ink of another size among equal ones.
    if let Some(g) = one_size(&sizes) {
        let room = nodes / total(&equal(g, n - 1), 1);
        let other = rng.pick(&[1, 2, g - 1, g.saturating_add(1), room.min(255) as u8]);
        sizes[rng.below(n)] = if other == g || other == 0 { g % 2 + 1 } else { other };
    }
    sizes
}

/// A size with so much room for it and the inks left: 1, 2 or 255; or up to a fair share of the room, twice that, or all of it.
fn drawn(rng: &mut Rng, sort: usize, room: u128, left: usize) -> u8 {
    if sort == 1 {
        return rng.pick(&[1, 2, 2, 255].map(|size: u8| if size as u128 <= room { size } else { 1 }));
    }
    let share = largest(left, room);
    let most = rng.pick(&[share, 2 * share, 255]).min(255).min(room as usize);
    rng.within(1, most) as u8
}

/// Sizes for a set of idle inks: those of the set may have one line, the others at least two; some have more, as many as the bound leaves.
pub fn sizes_for(rng: &mut Rng, n: usize, set: usize, bound: usize) -> Vec<u8> {
    let mut sizes: Vec<u8> = (0..n).map(|ink| if set >> ink & 1 == 1 { 1 } else { 2 }).collect();
    for _ in 0..rng.below(n + 1) {
        let (ink, room) = (rng.below(n), bound / total(&sizes, 1) as usize);
        let most = rng.pick(&[2, 3, 5, 255]).min(room * sizes[ink] as usize).min(255) as u8;
        sizes[ink] = sizes[ink].max(most);
    }
    sizes
}

/// The numbers of the nodes that are to be visited: of an ink that stands on a line those of that line alone, of any other those of the
/// lines on either side of it.
pub fn visited(sizes: &[u8], inputs: &[f32]) -> Vec<usize> {
    sizes.iter().zip(inputs).fold(vec![0], |nodes, (&size, &x)| {
        let low = product(size, x) as usize;
        let high = low + usize::from(!on_line(size, x));
        nodes.into_iter().flat_map(|node| (low..=high).map(move |k| node * size as usize + k)).collect()
    })
}

fn shuffle(rng: &mut Rng, sizes: &mut [u8]) {
    for left in (2..=sizes.len()).rev() {
        sizes.swap(left - 1, rng.below(left));
    }
}

/// Every order of these sizes.
pub fn orders(sizes: &[u8]) -> Vec<Vec<u8>> {
    if sizes.is_empty() {
        return vec![Vec::new()];
    }
    let rest = |ink: usize| [&sizes[..ink], &sizes[ink + 1..]].concat();
    (0..sizes.len()).flat_map(|ink| orders(&rest(ink)).into_iter().map(move |order| [&[sizes[ink]], &order[..]].concat())).collect()
}
