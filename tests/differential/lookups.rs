//! A lookup as a compared call.

use crate::case::{are_unequal, compare, number, numbers, plainness, Case, Run, Sort};
use crate::engines::{self, Answer};
use crate::grids::padded;
use oracle::{expected, slab};
use std::borrow::Cow;

/// How the calls of a set are held: as plain lookups, or as lookups with skipping (counted.rs).
pub type Hold = fn(&mut Run, Lookup);

/// Holds the plain lookup.
pub fn hold(run: &mut Run, call: Lookup) {
    run.hold(call);
}

#[derive(Clone)]
pub struct Lookup<'a> {
    pub sizes: [u8; 16],
    pub n: usize,
    pub m: usize,
    pub table: Cow<'a, [f32]>,
    pub inputs: Vec<f32>,
    /// The length of the answer buffer.
    pub answer: usize,
}

impl<'a> Lookup<'a> {
    /// A call that is accepted: a table of exactly the total, a buffer of m; after the sizes in use stands the first one again.
    pub fn good(sizes: &[u8], m: usize, table: impl Into<Cow<'a, [f32]>>, inputs: &[f32]) -> Lookup<'a> {
        let (table, inputs) = (table.into(), inputs.to_vec());
        Lookup { sizes: padded(sizes), n: sizes.len(), m, table, inputs, answer: m }
    }

    /// The sizes in use of a layout that is accepted.
    pub fn used(&self) -> &[u8] {
        &self.sizes[..self.n]
    }

    /// The entries that this layout needs, where the table is worth copying.
    fn total(&self) -> Option<usize> {
        let laid = expected::layout(&self.sizes, self.n, self.m) == 0 && self.table.len() <= 1 << 24;
        laid.then(|| expected::total(self.used(), self.m) as usize).filter(|&total| total <= self.table.len())
    }

    /// The same call with other sizes in use, and a table of their total with as many entries more as before.
    fn resized(&self, used: &[u8], m: usize, inputs: Vec<f32>, entries: impl IntoIterator<Item = f32>, more: usize) -> Self {
        let mut sizes = self.sizes;
        sizes[..used.len()].copy_from_slice(used);
        let table: Vec<f32> = entries.into_iter().chain(std::iter::repeat(0.0)).take(expected::total(used, m) as usize + more).collect();
        let answer = self.answer.saturating_sub(self.m - m);
        Lookup { sizes, n: used.len(), m, table: table.into(), inputs, answer }
    }
}

impl Case for Lookup<'_> {
    fn number(&self) -> u32 {
        expected::lookup(&self.sizes, self.n, self.m, self.table.len(), &self.inputs, self.answer)
    }

    fn parted(&self) -> Option<bool> {
        (self.number() == 0).then(|| oracle::parted(self.used(), self.m, &self.table, &self.inputs)).flatten()
    }

    fn nans(&self) -> [u64; 2] {
        let nans = |quiet: bool| self.inputs.iter().filter(|&&x| expected::is_nan(x) && (x.to_bits() & 0x0040_0000 != 0) == quiet).count() as u64;
        [nans(true), nans(false)]
    }

    fn unequal(&self) -> Option<Sort> {
        are_unequal(&self.sizes, self.n).then_some(Sort::Lookup)
    }

    fn difference(&self) -> Option<String> {
        let answer = engines::lookup(&self.sizes, self.n, self.m, &self.table, &self.inputs, self.answer);
        let (Answer { number: got, buffer, apart }, number) = (answer, self.number());
        if got != number {
            return Some(format!("the number is {got}, not {number}"));
        }
        if number != 0 {
            return compare(&buffer, &[]).or(apart);
        }
        compare(&buffer, &oracle::lookup(self.used(), self.m, &self.table, &self.inputs)).or(apart)
    }

    fn smaller(&self, take: &mut dyn FnMut(Self) -> bool) {
        let Some(total) = self.total() else { return };
        let (used, m, more) = (self.used(), self.m, self.table.len() - total);
        // Fewer inks: each ink left out, on each of its lines.
        for j in (1..=used.len()).filter(|_| used.len() > 1) {
            let inputs: Vec<f32> = self.inputs.iter().enumerate().filter(|(i, _)| i + 1 != j).map(|(_, &x)| x).collect();
            for line in 0..used[j - 1] as usize {
                if take(self.resized(&slab::without(used, j), m, inputs.clone(), slab::entries(used, m, &self.table, j, line), more)) {
                    return;
                }
            }
        }
        // Fewer outputs: each one left out.
        for o in (0..m).filter(|_| m > 1) {
            let kept = self.table.iter().enumerate().filter(|(i, _)| i % m != o).map(|(_, &e)| e);
            if take(self.resized(used, m - 1, self.inputs.clone(), kept, more)) {
                return;
            }
        }
        for fewer in self.fewer_lines() {
            if take(self.resized(&fewer, m, self.inputs.clone(), self.first_lines(&fewer), more)) {
                return;
            }
        }
        if more > 0 && take(Lookup { table: self.table[..total].to_vec().into(), ..self.clone() }) {
            return;
        }
        if self.answer > m && take(Lookup { answer: m, ..self.clone() }) {
            return;
        }
        self.plainer(take);
    }

    fn shown(&self) -> String {
        let inputs: Vec<String> = self.inputs.iter().map(|&x| number(x)).collect();
        format!(
            "lookup: sizes {:?}, n {}, m {}, answer buffer of {}\n  inputs: {}\n  table of {}",
            self.sizes, self.n, self.m, self.answer, inputs.join(", "), numbers(&self.table)
        )
    }
}

impl Lookup<'_> {
    /// Smaller sizes: of all inks, then of each ink alone.
    fn fewer_lines(&self) -> Vec<Vec<u8>> {
        let used = self.used();
        let less = |size: u8| [1, 2, 3, size - 1].into_iter().filter(move |&fewer| fewer > 0 && fewer < size);
        let all = less(used.iter().copied().max().unwrap_or(1)).map(|most| used.iter().map(|&size| size.min(most)).collect());
        let alone = (0..used.len()).flat_map(|ink| less(used[ink]).map(move |fewer| [&used[..ink], &[fewer], &used[ink + 1..]].concat()));
        all.chain(alone).collect()
    }

    /// The table of the nodes on the first lines of every ink, as many as `lines` says.
    fn first_lines(&self, lines: &[u8]) -> Vec<f32> {
        let (mut table, mut node) = (Vec::new(), vec![0; self.n]);
        loop {
            table.extend_from_slice(&self.table[expected::node_offset(self.used(), self.m, &node)..][..self.m]);
            if !expected::advance(&mut node, lines) {
                return table;
            }
        }
    }

    /// Plainer inputs and entries; entries by halves of the table, then by ever shorter stretches.
    fn plainer(&self, take: &mut dyn FnMut(Self) -> bool) {
        for i in 0..self.inputs.len() {
            for plain in [0.0, 1.0, 0.5] {
                let mut call = self.clone();
                call.inputs[i] = plain;
                if plainness(plain) < plainness(self.inputs[i]) && take(call) {
                    return;
                }
            }
        }
        let mut stretch = self.table.len();
        while stretch > 0 {
            for from in (0..self.table.len()).step_by(stretch) {
                let to = (from + stretch).min(self.table.len());
                for plain in [0.0f32, 1.0, 0.5] {
                    if self.table[from..to].iter().all(|&e| plainness(e) <= plainness(plain)) {
                        continue;
                    }
                    let mut call = self.clone();
                    for entry in call.table.to_mut()[from..to].iter_mut().filter(|e| plainness(**e) > plainness(plain)) {
                        *entry = plain;
                    }
                    if take(call) {
                        return;
                    }
                }
            }
            stretch /= 2;
        }
    }
}
