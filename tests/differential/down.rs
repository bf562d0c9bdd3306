//! Inks cut one after another until one is left: what remains is the stored nodes.

use crate::case::{are_unequal, numbers, Case, Run, Sort};
use crate::grids::{of_counts, padded, Sizes};
use crate::library;
use crate::values::{any_bits, Rng};
use oracle::expected;

/// A table whose inks are cut one after another, each at its line, until one is left.
#[derive(Clone)]
struct Down {
    /// The sizes in use.
    sizes: Vec<u8>,
    m: usize,
    table: Vec<f32>,
    lines: Vec<usize>,
    /// Which of the inks that are left is cut next, counted from 1.
    order: Vec<usize>,
}

impl Case for Down {
    fn number(&self) -> u32 {
        0
    }

    fn unequal(&self) -> Option<Sort> {
        are_unequal(&self.sizes, self.sizes.len()).then_some(Sort::Slab)
    }

    fn difference(&self) -> Option<String> {
        let Down { sizes, m, .. } = self;
        let (mut rest, mut left) = (self.table.clone(), (0..sizes.len()).collect::<Vec<usize>>());
        for &j in &self.order {
            let (used, ink): (Vec<u8>, usize) = (left.iter().map(|&ink| sizes[ink]).collect(), left[j - 1]);
            let mut part = vec![f32::NAN; rest.len() / sizes[ink] as usize];
            let got = library::cut_slab(&padded(&used), used.len(), *m, &rest, j, self.lines[ink], &mut part);
            if got != 0 {
                return Some(format!("the number is {got}, not 0, with {} inks", left.len()));
            }
            left.remove(j - 1);
            rest = part;
        }
        let mut node = self.lines.clone();
        (0..sizes[left[0]] as usize).find_map(|line| {
            node[left[0]] = line;
            let stored = &self.table[expected::node_offset(sizes, *m, &node)..][..*m];
            let same = rest[line * m..][..*m].iter().zip(stored).all(|(x, y)| x.to_bits() == y.to_bits());
            (!same).then(|| format!("the entries left at line {line} are not those of node {node:?}"))
        })
    }

    fn smaller(&self, _: &mut dyn FnMut(Self) -> bool) {}

    fn shown(&self) -> String {
        let Down { sizes, m, table, lines, order } = self;
        format!("inks cut one after another: sizes {sizes:?}, m {m}, lines {lines:?}, in the order {order:?}\n  table of {}", numbers(table))
    }
}

pub fn all(run: &mut Run, rng: &mut Rng, long: bool) {
    run.kind("inks cut one after another until one is left: the stored nodes");
    cuts(run, rng, if long { 240_000 } else { 30_000 }, Sizes::Equal);
    run.kind("inks of unequal sizes cut one after another until one is left: the stored nodes");
    cuts(run, rng, if long { 240_000 } else { 30_000 }, Sizes::Unequal);
}

fn cuts(run: &mut Run, rng: &mut Rng, tables: usize, sizes: Sizes) {
    for _ in 0..tables {
        let (n, m) = (if rng.one_in(64) { rng.within(9, 15) } else { rng.within(2, 8) }, rng.within(1, 4));
        let sizes = of_counts(rng, n, m, 1_000, sizes);
        let table = any_bits(rng, expected::total(&sizes, m) as usize);
        let lines = sizes.iter().map(|&size| rng.below(size as usize)).collect();
        run.hold(Down { sizes, m, table, lines, order: (2..=n).rev().map(|left| rng.within(1, left)).collect() });
    }
}
