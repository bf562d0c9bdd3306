//! The node reader: every node of small grids, and every refusal.

use crate::case::{are_unequal, Case, Run, Sort};
use crate::grids::{equal, grid, laid, orders, padded, Sizes};
use crate::library;
use crate::limits::COUNTS;
use crate::values::Rng;
use oracle::{definition, expected, one_size};

#[derive(Clone)]
struct Node<'a> {
    sizes: [u8; 16],
    n: usize,
    m: usize,
    table: &'a [f32],
    coordinates: Vec<usize>,
}

impl Case for Node<'_> {
    fn number(&self) -> u32 {
        expected::node(&self.sizes, self.n, self.m, self.table.len(), &self.coordinates)
    }

    fn unequal(&self) -> Option<Sort> {
        are_unequal(&self.sizes, self.n).then_some(Sort::Node)
    }

    fn difference(&self) -> Option<String> {
        let untouched = 0xA5A5_A5A5_A5A5;
        let mut offset = untouched;
        let got = library::node(&self.sizes, self.n, self.m, self.table, &self.coordinates, &mut offset);
        let number = self.number();
        let right = if number == 0 { expected::node_offset(&self.sizes, self.m, &self.coordinates) } else { untouched };
        ((got, offset) != (number, right)).then(|| format!("the number and offset are {got}, {offset}, not {number}, {right}"))
    }

    fn smaller(&self, take: &mut dyn FnMut(Self) -> bool) {
        for i in 0..self.coordinates.len() {
            let mut coordinates = self.coordinates.clone();
            coordinates[i] = 0;
            if self.coordinates[i] != 0 && take(Node { coordinates, ..self.clone() }) {
                return;
            }
        }
    }

    fn shown(&self) -> String {
        let Node { sizes, n, m, table, coordinates } = self;
        format!("node: sizes {sizes:?}, n {n}, m {m}, table of {} entries, coordinates {coordinates:?}", table.len())
    }
}

pub fn all(run: &mut Run, rng: &mut Rng) {
    let table: Vec<f32> = (0..40_000).map(|i| i as f32).collect();
    run.kind("every node of small grids; both oracles' lookups there answer the same entries");
    for (g, n, m) in [(1, 15, 1), (2, 1, 2), (5, 1, 15), (255, 1, 1), (3, 2, 3), (2, 3, 4), (4, 3, 2), (3, 4, 3), (2, 7, 3), (3, 6, 2), (2, 12, 1)] {
        every(run, &equal(g, n), m, &table);
    }
    run.kind("every node of small grids with unequal sizes, in every order of the sizes; the definition answers the same entries");
    let grids: [(&[u8], usize); 9] = [
        (&[2, 3], 1), (&[1, 255], 3), (&[7, 2], 15), (&[2, 3, 4], 2), (&[1, 2, 255], 1), (&[3, 3, 5], 1), (&[1, 2, 3, 4], 3), (&[2, 2, 2, 3, 5], 1),
        (&[1, 1, 2, 2, 3, 4], 1),
    ];
    for (sizes, m) in grids {
        orders(sizes).iter().for_each(|order| every(run, order, m, &table));
    }
    run.kind("small grids with unequal sizes, every choice of coordinates up to one past the last line of the ink with the most");
    for order in [&[2, 3][..], &[1, 9], &[1, 2, 3], &[2, 2, 4], &[2, 3, 4], &[1, 2, 3, 4]].into_iter().flat_map(orders) {
        every_choice(run, &order, &table);
    }
    run.kind("nodes, random and damaged");
    random(run, rng, &table, Sizes::Equal);
    run.kind("nodes with unequal sizes, random and damaged");
    random(run, rng, &table, Sizes::Unequal);
}

/// Every node of a grid, counted in ICC.1's order. Looked up there, the oracles answer its entries, the crate's text with equal sizes alone.
fn every(run: &mut Run, sizes: &[u8], m: usize, table: &[f32]) {
    let table = &table[..expected::total(sizes, m) as usize];
    let mut coordinates = vec![0; sizes.len()];
    for stored in table.chunks(m) {
        let inputs: Vec<f32> = coordinates.iter().zip(sizes).map(|(&k, &size)| k as f32 / f32::from(size.max(2) - 1)).collect();
        let rust = one_size(sizes).map(|g| oracle::rust_lookup(g, sizes.len(), m, table, &inputs));
        let answers = [definition::lookup(sizes, m, table, &inputs), table[expected::node_offset(sizes, m, &coordinates)..][..m].to_vec()];
        assert!(answers.iter().chain(&rust).all(|a| a[..] == *stored), "ICC.1's node order is not an oracle's: {answers:?} {rust:?}");
        run.hold(Node { sizes: padded(sizes), n: sizes.len(), m, table, coordinates: coordinates.clone() });
        expected::advance(&mut coordinates, sizes);
    }
}

/// Coordinates at and past each ink's own last line, with inks of more and of fewer lines beside it.
fn every_choice(run: &mut Run, sizes: &[u8], table: &[f32]) {
    let table = &table[..expected::total(sizes, 2) as usize];
    let past = equal(sizes.iter().copied().max().unwrap_or(1) + 1, sizes.len());
    let mut coordinates = vec![0; sizes.len()];
    loop {
        run.hold(Node { sizes: padded(sizes), n: sizes.len(), m: 2, table, coordinates: coordinates.clone() });
        if !expected::advance(&mut coordinates, &past) {
            return;
        }
    }
}

fn random(run: &mut Run, rng: &mut Rng, table: &[f32], sizes: Sizes) {
    for _ in 0..100_000 {
        let (used, m) = grid(rng, 4_000, sizes);
        let (n, total) = (used.len(), expected::total(&used, m) as usize);
        let coordinates = used.iter().map(|&size| rng.below(size as usize)).collect();
        let mut call = Node { sizes: laid(rng, &used), n, m, table: &table[..total.min(40_000)], coordinates };
        for _ in 0..rng.below(3) {
            match rng.below(7) {
                0 => call.n = if rng.one_in(2) { rng.pick(&COUNTS) } else { rng.below(17) },
                1 => call.m = if rng.one_in(2) { rng.pick(&COUNTS) } else { rng.below(17) },
                2 => call.sizes[rng.below(16)] = rng.pick(&[0, 1, 2, 255]),
                3 => call.table = &call.table[..call.table.len().saturating_sub(1)],
                4 => call.coordinates.resize(rng.pick(&[0, n - 1, n + 1, 17]), 0),
                // At or past its ink's own last line, or another ink's.
                _ if !call.coordinates.is_empty() => {
                    let (place, other) = (rng.below(call.coordinates.len()), rng.pick(&used) as usize);
                    let own = call.sizes[place.min(15)] as usize;
                    call.coordinates[place] = rng.pick(&[own.saturating_sub(1), own, own, own + 1, other - 1, other, 256, 1 << 32, usize::MAX]);
                }
                _ => {}
            }
        }
        run.hold(call);
    }
}
