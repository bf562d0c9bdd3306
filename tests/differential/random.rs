//! Random lookups, and good calls damaged in one or more places.

use crate::case::Run;
use crate::grids::{grid, laid, Sizes};
use crate::lookups::{hold, Hold, Lookup};
use crate::values::{fill_table, random_inputs, random_nan, Rng};
use oracle::expected;

/// A random call that is accepted unless an input is a NaN: sizes after the first n are anything, the table and the buffer may be longer than needed.
pub fn good(rng: &mut Rng, sizes: Sizes) -> Lookup<'static> {
    let bound = rng.pick(&[30, 100, 100, 300, 300, 1_000, 4_000]);
    let (used, m) = grid(rng, bound, sizes);
    let mut table = vec![0.0; expected::total(&used, m) as usize + if rng.one_in(4) { rng.below(20) } else { 0 }];
    fill_table(rng, &mut table);
    let mut inputs = vec![0.0; used.len()];
    random_inputs(rng, &used, &mut inputs);
    let mut call = Lookup { sizes: laid(rng, &used), ..Lookup::good(&used, m, table, &inputs) };
    call.answer += if rng.one_in(2) { rng.below(6) } else { 0 };
    call
}

/// `count` random lookups, sixteen on each table.
fn lookups(run: &mut Run, rng: &mut Rng, count: u64, sizes: Sizes) {
    let mut done = 0;
    while done < count {
        let mut call = good(rng, sizes);
        for _ in 0..16.min(count - done) {
            run.hold_ref(&call);
            done += 1;
            random_inputs(rng, &call.sizes[..call.n], &mut call.inputs);
        }
    }
}

/// Good calls with one to three of their parts damaged.
pub fn damaged(run: &mut Run, rng: &mut Rng, count: u64, sizes: Sizes, hold: Hold) {
    for _ in 0..count {
        let mut call = good(rng, sizes);
        for _ in 0..rng.within(1, 3) {
            damage(rng, &mut call);
        }
        hold(run, call);
    }
}

pub fn all(run: &mut Run, rng: &mut Rng, count: u64) {
    run.kind("random lookups, one to fifteen inks and outputs");
    lookups(run, rng, count, Sizes::Equal);
    run.kind("random lookups with unequal sizes, two to fifteen inks");
    lookups(run, rng, count, Sizes::Unequal);
    run.kind("damaged copies of good calls");
    damaged(run, rng, count / 2, Sizes::Equal, hold);
    run.kind("damaged copies of good calls with unequal sizes");
    damaged(run, rng, count / 2, Sizes::Unequal, hold);
}

fn damage(rng: &mut Rng, call: &mut Lookup) {
    let other = |rng: &mut Rng, x: usize| match rng.below(6) {
        0 => x.wrapping_add(1),
        1 => x.wrapping_sub(1),
        2 => x | 1 << rng.within(4, 63),
        3 => x.wrapping_add(1 << 32),
        4 => rng.next() as usize,
        _ => rng.below(18),
    };
    match rng.below(7) {
        0 => call.n = other(rng, call.n),
        1 => call.m = other(rng, call.m),
        2 => {
            let place = rng.below(16);
            call.sizes[place] = rng.pick(&[0, 1, 2, call.sizes[place] ^ 1, 255]);
        }
        3 => {
            let table = call.table.to_mut();
            table.truncate(rng.below(table.len() + 1).max(table.len().saturating_sub(2)));
        }
        4 => {
            let len = rng.pick(&[call.inputs.len().wrapping_sub(1), call.inputs.len() + 1, 0]).min(20);
            call.inputs.resize(len, 0.25);
        }
        5 if !call.inputs.is_empty() => {
            let place = rng.below(call.inputs.len());
            call.inputs[place] = random_nan(rng);
        }
        _ => call.answer = rng.pick(&[call.m.min(15).saturating_sub(1), 0, call.m.min(15) + 3]),
    }
}
