//! Lookups with skipping (document 02, E6). An ink is idle where its weight is 0, so where its input falls on one of its lines; from the
//! fourth ink on only the lower part is visited then. Made here: every set of idle inks, every count of inks and outputs, inputs on and
//! just beside every line, every choice of special inputs, and the sets that are made of plain lookups too. idle_tables.rs has tables in
//! which skipping shows, visits.rs what is touched.

use crate::case::Run;
use crate::counted::hold;
use crate::exhaustive::{every, tables, TEN};
use crate::grids::{equal, laid, of_counts, sizes_for, Sizes};
use crate::lines::around;
use crate::lookups::Lookup;
use crate::values::{fill_table, idle_or_active, random_inputs, with_idle, Rng};
use crate::{huge, idle_tables, limits, nans, random, visits};
use oracle::{definition, expected};

pub fn all(run: &mut Run, rng: &mut Rng, count: u64, long: bool) {
    sets(run, rng, if long { 8 } else { 1 });
    counts(run, rng, if long { 100 } else { 12 });
    beside_lines(run, rng);
    choices(run, rng);
    idle_tables::all(run, rng, if long { 8 } else { 1 });
    limits::all(run, rng, ["with skipping: around every limit, every pair of them", "with skipping: the same with unequal sizes"], hold);
    run.kind("with skipping: each ink of one to fifteen a NaN, then an infinity; some or all of them NaNs");
    nans::each_ink(run, rng, hold);
    nans::some_inks(run, rng, hold);
    run.kind("with skipping: random lookups");
    lookups(run, rng, count, Sizes::Equal);
    run.kind("with skipping: random lookups with unequal sizes");
    lookups(run, rng, count, Sizes::Unequal);
    run.kind("with skipping: damaged copies of good calls, with equal sizes and with unequal ones");
    [Sizes::Equal, Sizes::Unequal].into_iter().for_each(|sizes| random::damaged(run, rng, count / 2, sizes, hold));
    let kinds = ["with skipping: tables of up to 4,294,967,295 entries", "with skipping: the same with unequal sizes"];
    huge::all(run, rng, kinds, hold, long);
    visits::parts(run, rng);
    run.skipping.complete();
}

/// A table for these sizes, of a random sort or of shares; longer than the total at times.
fn table(rng: &mut Rng, sizes: &[u8], m: usize) -> Vec<f32> {
    let mut table = vec![0.0; expected::total(sizes, m) as usize + rng.pick(&[0, 0, 0, 5])];
    if rng.one_in(3) { table.fill_with(|| rng.unit()) } else { fill_table(rng, &mut table) };
    table
}

/// Every set of idle inks: of four to nine inks all of them, of ten and more every set of those from the fourth on.
fn sets(run: &mut Run, rng: &mut Rng, times: usize) {
    run.kind("with skipping: every set of idle inks, four to nine inks");
    for (n, set) in (4..=9).flat_map(|n| (0..1 << n).map(move |set| (n, set))) {
        (0..40 * times).for_each(|_| of_set(run, rng, n, set, 3_000));
    }
    run.kind("with skipping: every set of idle inks from the fourth on, ten to fifteen inks");
    for (n, set) in (10..=15).flat_map(|n| (0..1 << (n - 3)).map(move |set| (n, set << 3))) {
        for _ in 0..times {
            let first = rng.below(8);
            of_set(run, rng, n, set | first, 40_000);
        }
    }
}

/// A call with this set of idle inks, its sizes and its table drawn for it.
fn of_set(run: &mut Run, rng: &mut Rng, n: usize, set: usize, bound: usize) {
    let (sizes, m) = (sizes_for(rng, n, set, bound), rng.pick(&[1, 1, 1, 2, 3, 4, 5]));
    let (table, inputs) = (table(rng, &sizes, m), with_idle(rng, &sizes, set));
    let reads = 6 << (3..n).filter(|ink| set >> ink & 1 == 0).count();
    assert_eq!(definition::closed_count(&sizes, &inputs), reads, "of {n} inks others are idle than those of {set:b}");
    let answer = m + rng.below(3);
    hold(run, Lookup { sizes: laid(rng, &sizes), answer, ..Lookup::good(&sizes, m, table, &inputs) });
}

/// Every count of inks and of outputs, on two lines and on sizes of any sort; no ink idle, all, and random sets.
fn counts(run: &mut Run, rng: &mut Rng, times: usize) {
    run.kind("with skipping: every count of inks and outputs");
    for (n, m) in (1..=15).flat_map(|n| (1..=15).map(move |m| (n, m))) {
        let bound = if n < 9 { 2_000 } else { 40_000 };
        let sort = if n > 1 && rng.one_in(2) { Sizes::Unequal } else { Sizes::Equal };
        for sizes in [equal(2, n), of_counts(rng, n, m, bound, sort)] {
            for table in tables(rng, &sizes, m) {
                let sets = [(1 << n) - 1].into_iter().chain((m < 4 || n < 9).then_some(0));
                for set in sets.chain((0..times).map(|_| rng.below(1 << n))).collect::<Vec<_>>() {
                    hold(run, Lookup::good(&sizes, m, &table, &with_idle(rng, &sizes, set)));
                }
            }
        }
    }
}

/// The last of three to five inks on every line of every grid, and the three floats on either side: the rounded product decides, and a
/// weight that is not 0 counts however small. The third ink is never skipped. Entries are of any sort, so that a small weight shows.
fn beside_lines(run: &mut Run, rng: &mut Rng) {
    run.kind("with skipping: the last of three, four or five inks on each line of each grid, and the three inputs on either side");
    for (first, g) in [&[2u8, 1][..], &[2, 1, 2], &[1, 2, 1, 2]].into_iter().flat_map(|first| (2..=255).map(move |g| (first, g))) {
        let sizes = [first, &[g]].concat();
        let tables = tables(rng, &sizes, 1);
        for line in 0..g {
            for x in around(g, line, 3) {
                let (set, table) = (rng.below(16), &tables[rng.below(2)]);
                hold(run, Lookup::good(&sizes, 1, table, &[&with_idle(rng, first, set)[..], &[x]].concat()));
            }
        }
    }
}

/// Four and five inks, every choice of ten inputs: zeros of both signs, the smallest float, on, just under and between lines, 1 and a NaN.
fn choices(run: &mut Run, rng: &mut Rng) {
    run.kind("with skipping: four and five inks, every choice of ten inputs");
    let ten = TEN.map(f32::from_bits);
    for sizes in [&[2; 4][..], &[3; 4], &[2, 3, 1, 3], &[3; 5], &[1, 2, 2, 3, 3]] {
        for table in tables(rng, sizes, 1) {
            every(&vec![ten.to_vec(); sizes.len()], |inputs| hold(run, Lookup::good(sizes, 1, &table, inputs)));
        }
    }
}

/// `count` random calls, sixteen on each table; in half of them each ink, by chance, on one of its lines.
fn lookups(run: &mut Run, rng: &mut Rng, count: u64, sizes: Sizes) {
    for _ in 0..count / 16 {
        let mut call = random::good(rng, sizes);
        for turn in 0..16 {
            random_inputs(rng, &call.sizes[..call.n], &mut call.inputs);
            for ink in (0..call.n).filter(|_| turn % 2 == 0) {
                call.inputs[ink] = if rng.one_in(3) { call.inputs[ink] } else { idle_or_active(rng, call.sizes[ink], true) };
            }
            hold(run, call.clone());
        }
    }
}
