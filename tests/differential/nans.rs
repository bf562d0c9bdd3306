//! NaN inputs (document 02, E8): each ink of one to fifteen in turn, every NaN that there is, and infinities beside them, which are clipped.

use crate::case::{guarded, sentinel, Case, Run, GUARD};
use crate::engines;
use crate::exhaustive::tables;
use crate::grids::{equal, padded};
use crate::lookups::{hold, Hold, Lookup};
use crate::values::{random_nan, random_numbers, Rng, NANS};

pub fn all(run: &mut Run, rng: &mut Rng) {
    run.kind("each ink of one to fifteen a NaN: the first and last of each kind and sign, and random ones; then an infinity");
    each_ink(run, rng, hold);
    run.kind("some or all of two to fifteen inks NaNs");
    some_inks(run, rng, hold);
    for (told, n) in [("every NaN as the ink of one", 1), ("every NaN as the fourth of four inks", 4), ("every NaN as the fifth of five inks", 5)] {
        run.kind(told);
        every_nan(run, rng, n);
    }
}

/// Each ink of one to fifteen a NaN, and then an infinity, in grids of up to three lines.
pub fn each_ink(run: &mut Run, rng: &mut Rng, hold: Hold) {
    for n in 1..=15 {
        let other: Vec<u8> = (0..n).map(|ink| 1 + ink as u8 % 3).collect();
        let most = if n < 9 { 3 } else { 2 };
        for sizes in (1..=most).map(|g| equal(g, n)).chain((n < 9).then_some(other)) {
            for m in [1, 3, 4] {
                within(run, rng, &sizes, m, hold);
            }
        }
    }
}

/// Two or more inks NaNs.
pub fn some_inks(run: &mut Run, rng: &mut Rng, hold: Hold) {
    for n in 2..=15 {
        let [table, _] = tables(rng, &equal(2, n), 2);
        let mut inputs = vec![0.0; n];
        for _ in 0..200 {
            random_numbers(rng, &equal(2, n), &mut inputs);
            (0..rng.within(2, n)).for_each(|_| inputs[rng.below(n)] = random_nan(rng));
            hold(run, Lookup::good(&equal(2, n), 2, &table, &inputs));
        }
    }
}

/// Each ink in turn a NaN among numbers, and then an infinity: it is that input that was refused.
fn within(run: &mut Run, rng: &mut Rng, sizes: &[u8], m: usize, hold: Hold) {
    let [table, _] = tables(rng, sizes, m);
    let mut inputs = vec![0.0; sizes.len()];
    for ink in 0..sizes.len() {
        let more = [random_nan(rng), random_nan(rng)];
        for nan in NANS.into_iter().map(f32::from_bits).chain(more) {
            random_numbers(rng, sizes, &mut inputs);
            inputs[ink] = nan;
            hold(run, Lookup::good(sizes, m, &table, &inputs));
        }
        for infinity in [f32::INFINITY, f32::NEG_INFINITY] {
            inputs[ink] = infinity;
            let clipped = Lookup::good(sizes, m, &table, &inputs);
            assert_eq!(clipped.number(), 0, "the reading of document 02 refuses an infinity");
            hold(run, clipped);
        }
    }
}

/// The last of n inks at every NaN, 2^24 - 2 of them. The engines are called directly here.
fn every_nan(run: &mut Run, rng: &mut Rng, n: usize) {
    let [table, _] = tables(rng, &equal(3, n), 1);
    let (sizes, mut inputs, mut buffers) = (padded(&equal(3, n)), vec![0.25; n], [guarded(2), guarded(2)]);
    for bits in (0x7F80_0001..=0x7FFF_FFFF).chain(0xFF80_0001..=0xFFFF_FFFF) {
        inputs[n - 1] = f32::from_bits(bits);
        let got = engines::ask(&sizes, n, 1, &table, &inputs, buffers.each_mut().map(|buffer| &mut buffer[GUARD..GUARD + 2]));
        if got != [16; 2] || buffers.iter().any(|buffer| buffer[GUARD].to_bits() != sentinel(GUARD).to_bits()) {
            run.hold(Lookup { answer: 2, ..Lookup::good(&equal(3, n), 1, &table, &inputs) });
        }
    }
    let untouched = |buffer: &Vec<f32>| buffer.iter().enumerate().all(|(place, x)| x.to_bits() == sentinel(place).to_bits());
    assert!(buffers.iter().all(untouched), "a refused call wrote");
    // Of each sign 2^22 are quiet; signalling ones are as many but for the pattern of an infinity.
    run.refused((1 << 24) - 2, [1 << 23, (1 << 23) - 2]);
}
