//! Tables in which the lookup with skipping (document 02, E6) answers otherwise than the plain one, and what remains of a table when idle
//! inks are cut out of it: there the plain lookup answers what skipping owes.

use crate::case::Run;
use crate::counted::hold;
use crate::exhaustive::tables;
use crate::grids::{equal, of_counts, sizes_for, visited, Sizes};
use crate::lookups::Lookup;
use crate::values::{idle_or_active, with_idle, Rng, STRANGE};
use oracle::{definition, expected, slab};
use std::time::Instant;

pub fn all(run: &mut Run, rng: &mut Rng, times: usize) {
    unvisited(run, rng, times);
    zeros(run, rng);
}

/// The definition with skipping against the plain lookup in what remains when every idle ink from the fourth on is cut out on its line:
/// with equal sizes that is the crate's text, but for what demand 2 excepts.
pub fn cut(rng: &mut Rng) {
    let (began, mut done, mut by_text) = (Instant::now(), 0, 0);
    for (n, round) in (4..=15).flat_map(|n| (0..if n < 9 { 600 } else { 100 }).map(move |round| (n, round))) {
        let m = rng.within(1, 4);
        let sizes = of_counts(rng, n, m, 2_000, if round % 2 == 0 { Sizes::Equal } else { Sizes::Unequal });
        for table in tables(rng, &sizes, m) {
            let set = rng.below(1 << n);
            let inputs = with_idle(rng, &sizes, set);
            let (left, rest, remaining) = without_idle(&sizes, m, &table, &inputs);
            let (skipping, plain) = (definition::skipping(&sizes, m, &table, &inputs).0, oracle::lookup(&left, m, &remaining, &rest));
            assert!(oracle::same(&skipping, &plain), "{sizes:?} at {inputs:?}: {skipping:?} with skipping, {plain:?} without idle inks");
            done += 1;
            by_text += usize::from(oracle::one_size(&left).is_some_and(|g| !oracle::excepted(g, &rest)));
        }
    }
    let told = "lookups, no calls: the definition with skipping (E6) answers as the plain lookup in the table without the idle inks";
    println!("{done:>10}  {told}, {by_text} times the Rust text's ({:.1} s)", began.elapsed().as_secs_f64());
}

/// Sizes, inputs and the table that remain when every idle ink from the fourth on is cut out on its line.
fn without_idle(sizes: &[u8], m: usize, table: &[f32], inputs: &[f32]) -> (Vec<u8>, Vec<f32>, Vec<f32>) {
    let (mut sizes, mut inputs, mut table) = (sizes.to_vec(), inputs.to_vec(), table.to_vec());
    for ink in (3..sizes.len()).rev().filter(|&ink| definition::on_line(sizes[ink], inputs[ink])).collect::<Vec<_>>() {
        let line = definition::product(sizes[ink], inputs[ink]) as usize;
        table = slab::entries(&sizes, m, &table, ink + 1, line);
        (sizes, _) = (slab::without(&sizes, ink + 1), inputs.remove(ink));
    }
    (sizes, inputs, table)
}

/// Tables with shares at the nodes that are to be visited, and NaN, infinities or the largest numbers at all others: one of these in a
/// blend, with whatever weight, would show. The plain lookup reads some of them.
fn unvisited(run: &mut Run, rng: &mut Rng, times: usize) {
    run.kind("with skipping: NaN, infinities or the largest numbers at every node that is not to be visited");
    for (n, round) in (4..=15).flat_map(|n| (0..times * if n < 9 { 8_000 } else { 1_000 }).map(move |round| (n, round))) {
        // At most six inks are not idle, so that of many inks most nodes are not visited.
        let set = (0..rng.below(7)).fold((1 << n) - 1, |set, _| set & !(1usize << rng.below(n)));
        let (mut sizes, m) = (sizes_for(rng, n, set, 8_000), rng.within(1, 4));
        for ink in (3..n).filter(|ink| (round + ink) % 3 > 0) {
            sizes[ink] = sizes[ink].max(if expected::total(&sizes, 1) < 8_000 { 2 } else { 1 });
        }
        let inputs = with_idle(rng, &sizes, set);
        let mut table = vec![rng.pick(&STRANGE); expected::total(&sizes, m) as usize];
        if rng.one_in(2) {
            table.fill_with(|| rng.pick(&STRANGE));
        }
        visited(&sizes, &inputs).into_iter().for_each(|node| table[node * m..][..m].fill_with(|| rng.unit()));
        let answers = definition::skipping(&sizes, m, &table, &inputs).0;
        assert!(answers.iter().all(|a| (-0.01..1.01).contains(a)), "the definition with skipping visits another node");
        hold(run, Lookup::good(&sizes, m, table, &inputs));
    }
}

/// A −0.0 that comes out of a tetrahedron: at its lowest corner stands −0.0, each step goes down by the smallest float, and its term is
/// rounded to −0.0. With all other inks idle it is the answer; the plain lookup, and any one blend more, make +0.0 of it.
fn zeros(run: &mut Run, rng: &mut Rng) {
    run.kind("with skipping: a zero with a minus sign that comes through");
    for (n, m) in (3..=15).flat_map(|n| (1..=if n < 10 { 15 } else { 2 }).map(move |m| (n, m))) {
        let sizes = equal(2, n);
        let table: Vec<f32> = (0..expected::total(&sizes, m) as usize).map(|entry| downward(entry / m >> (n - 3))).collect();
        for active in (3..n).map(Some).chain([None]) {
            let low = |ink: usize, rng: &mut Rng| if ink < 3 { 0.05 + 0.4 * rng.unit() } else { idle_or_active(rng, 2, true) };
            let mut inputs: Vec<f32> = (0..n).map(|ink| low(ink, rng)).collect();
            active.into_iter().for_each(|ink| inputs[ink] = idle_or_active(rng, 2, false));
            let sign = definition::skipping(&sizes, m, &table, &inputs).0[0].to_bits();
            assert_eq!(sign, if active.is_none() { 0x8000_0000 } else { 0 }, "the definition's zero has another sign");
            hold(run, Lookup::good(&sizes, m, &table, &inputs));
        }
    }
}

/// The entry of a corner of the first three inks: as many of the smallest floats below −0.0 as inks stand at their upper node.
fn downward(corner: usize) -> f32 {
    f32::from_bits(0x8000_0000 + corner.count_ones())
}
