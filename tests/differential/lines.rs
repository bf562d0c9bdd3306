//! Inputs on and around grid lines, where the whole part of the product changes; and every input there is, for one ink.

use crate::case::Run;
use crate::engines;
use crate::lookups::Lookup;
use crate::values::{random_numbers, Rng};
use oracle::expected;

/// The input whose quotient is the line, and as many floats as `reach` below and above it.
pub fn around(g: u8, line: u8, reach: u32) -> impl Iterator<Item = f32> {
    let near = (f32::from(line) / f32::from(g.max(2) - 1)).to_bits();
    (near.saturating_sub(reach)..=near + reach).map(f32::from_bits)
}

fn table(rng: &mut Rng, sizes: &[u8]) -> Vec<f32> {
    (0..expected::total(sizes, 1)).map(|_| rng.unit()).collect()
}

pub fn all(run: &mut Run, rng: &mut Rng, long: bool) {
    run.kind("one ink at each line of each grid, and the eight inputs on either side");
    for g in 1..=255 {
        let table = table(rng, &[g]);
        for line in 0..g {
            around(g, line, 8).for_each(|x| run.hold(Lookup::good(&[g], 1, &table, &[x])));
        }
    }
    run.kind("each of six inks at each line of grids of up to 8 lines, and the two inputs on either side");
    for g in 2..=8 {
        each_line(run, rng, &[g; 6]);
    }
    run.kind("each of six or seven inks at each line of grids with unequal sizes, and the two inputs on either side");
    let grids: [&[u8]; 8] = [
        &[2, 3, 4, 5, 6, 7], &[7, 6, 5, 4, 3, 2], &[255, 1, 2, 1, 2, 3], &[1, 2, 1, 3, 255, 2], &[2, 1, 2, 130, 1, 1, 130], &[1, 66, 1, 1, 34, 18, 1],
        &[3, 3, 3, 3, 5, 3], &[9, 9, 9, 2, 9, 9],
    ];
    for sizes in grids {
        each_line(run, rng, sizes);
    }
    if long {
        every_input(run, &table(rng, &[255]));
    }
}

/// Each ink at each of its own lines, the others anywhere.
fn each_line(run: &mut Run, rng: &mut Rng, sizes: &[u8]) {
    let (table, mut inputs) = (table(rng, sizes), vec![0.0; sizes.len()]);
    for (ink, line) in (0..sizes.len()).flat_map(|ink| (0..sizes[ink]).map(move |line| (ink, line))) {
        for x in (0..20).flat_map(|_| around(sizes[ink], line, 2)) {
            random_numbers(rng, sizes, &mut inputs);
            inputs[ink] = x;
            run.hold(Lookup::good(sizes, 1, &table, &inputs));
        }
    }
}

/// One ink on 255 lines at every float from 0 to 1. All three are called directly here: a billion calls.
fn every_input(run: &mut Run, table: &[f32]) {
    run.kind("one ink on 255 lines, every input from 0 to 1");
    let lut = oracle::Lut::new(255, 1, 1);
    let (mut rust, mut ours, mut first) = ([0.0], [0.0], [0.0]);
    for bits in 0..=1f32.to_bits() {
        let input = [f32::from_bits(bits)];
        lut.lookup(table, &input, &mut rust);
        let numbers = engines::ask(&[255; 16], 1, 1, table, &input, [&mut ours, &mut first]);
        if numbers != [0; 2] || [ours, first].map(|x| x[0].to_bits()) != [rust[0].to_bits(); 2] {
            run.hold(Lookup::good(&[255], 1, table, &input));
        }
    }
    run.compared(u64::from(1f32.to_bits()) + 1);
}
