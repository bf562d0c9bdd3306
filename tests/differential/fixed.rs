//! Demand 3 from end to end: an ink on a grid line, and lookups with and without it in the table and in the slab that the library cuts.

use crate::case::{are_unequal, compare, number, numbers, Case, Run, Sort, GUARD};
use crate::engines::{self, Answer};
use crate::grids::{of_counts, padded, Sizes};
use crate::library;
use crate::values::{after, numeric, random_input, random_numbers, with_products, Rng};
use oracle::{expected, slab};
use std::borrow::Cow;

/// A lookup with ink j on line k, in the whole table and, without that ink, in the slab.
#[derive(Clone)]
struct Fixed<'a> {
    /// The sizes in use.
    sizes: Vec<u8>,
    m: usize,
    table: Cow<'a, [f32]>,
    j: usize,
    k: usize,
    inputs: Vec<f32>,
    /// How much longer than its total the slab's buffer is.
    longer: usize,
}

impl Fixed<'_> {
    fn others(&self) -> Vec<f32> {
        let mut inputs = self.inputs.clone();
        inputs.remove(self.j - 1);
        inputs
    }

    /// The answers in the whole table and in the slab that the library cuts. For the slab ink j's size is taken out.
    fn answers(&self) -> Result<[Answer; 2], String> {
        let (m, sizes, left) = (self.m, &self.sizes[..], &slab::without(&self.sizes, self.j)[..]);
        let mut part = vec![f32::NAN; expected::total(left, m) as usize + self.longer];
        let lookup = |sizes: &[u8], table: &[f32], inputs: &[f32]| engines::lookup(&padded(sizes), sizes.len(), m, table, inputs, m);
        let cut = library::cut_slab(&padded(sizes), sizes.len(), m, &self.table, self.j, self.k, &mut part);
        let answers = [lookup(sizes, &self.table, &self.inputs), lookup(left, &part, &self.others())];
        let numbers = [cut, answers[0].number, answers[1].number];
        if numbers == [0; 3] { Ok(answers) } else { Err(format!("the numbers of the cut and of both lookups are {numbers:?}")) }
    }

    /// Where the two answers differ by more than the sign of a zero.
    fn apart(&self, [whole, fewer]: &[Answer; 2]) -> Option<String> {
        let plain = |x: f32| if x == 0.0 { 0 } else { x.to_bits() };
        let (whole, fewer) = (&whole.buffer[GUARD..][..self.m], &fewer.buffer[GUARD..][..self.m]);
        let o = (0..self.m).find(|&o| plain(whole[o]) != plain(fewer[o]))?;
        Some(format!("output {o} is {} in the whole table and {} in the slab", number(whole[o]), number(fewer[o])))
    }
}

impl Case for Fixed<'_> {
    fn number(&self) -> u32 {
        slab::number(&padded(&self.sizes), self.sizes.len(), self.m, self.table.len(), self.j, self.k, usize::MAX)
    }

    /// Of its two lookups the one in the whole table.
    fn parted(&self) -> Option<bool> {
        oracle::parted(&self.sizes, self.m, &self.table, &self.inputs)
    }

    fn unequal(&self) -> Option<Sort> {
        are_unequal(&self.sizes, self.sizes.len()).then_some(Sort::Lookup)
    }

    fn difference(&self) -> Option<String> {
        let answers = match self.answers() {
            Ok(answers) => answers,
            Err(refused) => return Some(refused),
        };
        let right = slab::entries(&self.sizes, self.m, &self.table, self.j, self.k);
        compare(&answers[1].buffer, &oracle::lookup(&slab::without(&self.sizes, self.j), self.m, &right, &self.others()))
            .map(|told| format!("in the slab, against the oracle: {told}"))
            .or_else(|| self.apart(&answers))
            .or_else(|| answers.into_iter().find_map(|answer| answer.apart))
    }

    fn smaller(&self, take: &mut dyn FnMut(Self) -> bool) {
        for ink in (0..self.sizes.len()).filter(|&ink| ink + 1 != self.j && self.inputs[ink].to_bits() != 0) {
            let mut call = self.clone();
            call.inputs[ink] = 0.0;
            if take(call) {
                return;
            }
        }
        for place in (0..self.table.len()).filter(|&place| self.table[place].to_bits() != 0) {
            let mut call = self.clone();
            call.table.to_mut()[place] = 0.0;
            if take(call) {
                return;
            }
        }
    }

    fn shown(&self) -> String {
        let Fixed { sizes, m, table, j, k, inputs, longer } = self;
        let inputs: Vec<String> = inputs.iter().map(|&x| number(x)).collect();
        let inputs = inputs.join(", ");
        format!("ink {j} on line {k}: sizes {sizes:?}, m {m}, slab buffer longer by {longer}\n  inputs: {inputs}\n  table of {}", numbers(table))
    }
}

/// An input that falls on line k, if there is one: by its rounded product, or because it is clipped to the first or the last line.
fn on_line(rng: &mut Rng, g: u8, k: usize) -> Option<f32> {
    let last = g as usize - 1;
    let clipped = rng.one_in(2);
    if last == 0 {
        return Some(numeric(random_input(rng, g)));
    }
    if k == 0 && clipped {
        return Some(f32::from_bits(rng.pick(&[0x8000_0000, 0x8000_0001, 0xBF80_0000, 0xFF80_0000])));
    }
    if k == last && clipped {
        return Some(rng.pick(&[after(1.0), 2.0, f32::MAX, f32::INFINITY]));
    }
    let inputs: Vec<f32> = with_products(g, k as f32).collect();
    (!inputs.is_empty()).then(|| rng.pick(&inputs))
}

/// An entry from 0 to 1, both zeros and 1 among them.
fn share(rng: &mut Rng) -> f32 {
    match rng.below(8) {
        0 => rng.pick(&[0.0, -0.0, 1.0]),
        1 => f32::from_bits(rng.below(0x3F80_0001) as u32),
        _ => rng.unit(),
    }
}

pub fn all(run: &mut Run, rng: &mut Rng, long: bool) {
    run.kind("lookups with ink 4 or a later one on a line, four to fifteen inks, in the table and in its slab (demand 3)");
    on_lines(run, rng, if long { 96_000 } else { 12_000 }, Sizes::Equal);
    run.kind("the same with unequal sizes: the ink on its own line, and its size taken out for the slab (demand 3)");
    on_lines(run, rng, if long { 96_000 } else { 12_000 }, Sizes::Unequal);
}

/// Sixteen lookups in each of so many tables.
fn on_lines(run: &mut Run, rng: &mut Rng, tables: usize, sizes: Sizes) {
    for _ in 0..tables {
        let (n, m) = (if rng.one_in(64) { rng.within(9, 15) } else { rng.within(4, 8) }, if rng.one_in(8) { rng.within(1, 15) } else { rng.within(1, 4) });
        let bound = rng.pick(&[300, 300, 1_000, 1_000, 4_000, 4_000, 20_000, 300_000]);
        let used = of_counts(rng, n, m, bound, sizes);
        let table: Vec<f32> = (0..expected::total(&used, m)).map(|_| share(rng)).collect();
        for _ in 0..16 {
            let j = rng.within(4, n);
            let k = rng.below(used[j - 1] as usize);
            let Some(x) = on_line(rng, used[j - 1], k) else { continue };
            let mut inputs = vec![0.0; n];
            random_numbers(rng, &used, &mut inputs);
            inputs[j - 1] = x;
            run.hold(Fixed { sizes: used.clone(), m, table: (&table).into(), j, k, inputs, longer: rng.pick(&[0, 0, 1, 9]) });
        }
    }
}
