//! Slabs of tables up to the largest total: 17 GB of address space, whose pages are zeros that take no memory but for the few entries that are set.
//! The slab itself is written: 66 MB and more.

use crate::case::{are_unequal, number, Case, Run, Sort};
use crate::grids::{equal, padded};
use crate::huge::Zeros;
use crate::library;
use crate::values::Rng;
use oracle::{expected, slab};

struct Huge<'a> {
    /// The sizes in use.
    sizes: &'a [u8],
    m: usize,
    table: &'a [f32],
    j: usize,
    k: usize,
    /// The length of the slab's buffer.
    room: usize,
}

/// What stands in the buffer beforehand.
const UNTOUCHED: f32 = 7.5;

impl Case for Huge<'_> {
    fn number(&self) -> u32 {
        slab::number(&padded(self.sizes), self.sizes.len(), self.m, self.table.len(), self.j, self.k, self.room)
    }

    fn unequal(&self) -> Option<Sort> {
        are_unequal(self.sizes, self.sizes.len()).then_some(Sort::Slab)
    }

    fn difference(&self) -> Option<String> {
        let Huge { sizes, m, table, j, k, room } = *self;
        let mut buffer = vec![UNTOUCHED; room];
        let (got, right) = (library::cut_slab(&padded(sizes), sizes.len(), m, table, j, k, &mut buffer), self.number());
        if got != right {
            return Some(format!("the number is {got}, not {right}"));
        }
        let part = if right == 0 { slab::entries(sizes, m, table, j, k) } else { Vec::new() };
        let entry = |e: usize| part.get(e).copied().unwrap_or(UNTOUCHED);
        let e = (0..room).find(|&e| buffer[e].to_bits() != entry(e).to_bits())?;
        Some(format!("entry {e} is {}, not {}", number(buffer[e]), number(entry(e))))
    }

    fn smaller(&self, _: &mut dyn FnMut(Self) -> bool) {}

    fn shown(&self) -> String {
        let Huge { sizes, m, table, j, k, room } = self;
        format!("cut_slab: sizes {sizes:?}, m {m}, j {j}, k {k}, table of {} entries, buffer of {room}", table.len())
    }
}

pub fn all(run: &mut Run, rng: &mut Rng, long: bool) {
    run.kind("slabs of tables of up to 4,228,250,625 entries");
    let layouts = [(255, 3, 15), (255, 4, 1), (138, 4, 11), (84, 5, 1)];
    for (g, n, m) in &layouts[..if long { 4 } else { 2 }] {
        of_table(run, rng, &equal(*g, *n), *m, long);
    }
    run.kind("slabs of tables with unequal sizes of up to 4,294,967,280 entries");
    let layouts: [(&[u8], usize); 3] = [(&[254, 226, 215, 174], 2), (&[174, 215, 226, 254], 2), (&[84, 60, 84, 60, 168], 1)];
    for (sizes, m) in &layouts[..if long { 3 } else { 1 }] {
        of_table(run, rng, sizes, *m, long);
    }
}

fn of_table(run: &mut Run, rng: &mut Rng, sizes: &[u8], m: usize, long: bool) {
    let Some(mut zeros) = Zeros::new(expected::total(sizes, m) as usize) else {
        println!("            no address space for sizes {sizes:?}, m {m}: left out");
        return;
    };
    let n = sizes.len();
    let part = |j: usize| expected::total(&slab::without(sizes, j), m) as usize;
    // A cut of the last ink reads every page of the table.
    for j in 1..=if long { n } else { n - 1 } {
        let last = sizes[j - 1] as usize - 1;
        for k in [0, rng.below(last), last] {
            set(rng, zeros.entries(), sizes, m, j, k);
            for room in [part(j) - 1, part(j) + 1] {
                run.hold(Huge { sizes, m, table: zeros.entries(), j, k, room });
            }
        }
    }
    let (table, room) = (zeros.entries(), part(1));
    for length in [table.len() - 1, table.len() % (1 << 31)] {
        run.hold(Huge { sizes, m, table: &table[..length], j: 1, k: 0, room });
    }
    run.hold(Huge { sizes, m, table, j: n + 1, k: 0, room });
    run.hold(Huge { sizes, m, table, j: 1, k: sizes[0] as usize, room });
}

/// Sets entries of some nodes on line k of ink j and on the lines beside it, the last node of the slab among them.
fn set(rng: &mut Rng, table: &mut [f32], sizes: &[u8], m: usize, j: usize, k: usize) {
    for i in 0..24 {
        let mut node: Vec<usize> = sizes.iter().map(|&size| if i == 0 { size as usize - 1 } else { rng.below(size as usize) }).collect();
        for line in k.saturating_sub(1)..=(k + 1).min(sizes[j - 1] as usize - 1) {
            node[j - 1] = line;
            for entry in &mut table[expected::node_offset(sizes, m, &node)..][..m] {
                *entry = rng.bits();
            }
        }
    }
}
