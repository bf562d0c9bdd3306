//! Lookups over whole sets of special inputs, and just under powers of two, where the rounded p+1 skips a node.

use crate::case::{Case, Run};
use crate::grids::equal;
use crate::lookups::Lookup;
use crate::values::{fill_table, random_numbers, skipping, special_inputs, Rng, NANS};
use oracle::expected;

/// Ten inputs: both zeros, the smallest float, on and just under lines and between them, 1 and a NaN.
pub const TEN: [u32; 10] = [
    0x0000_0000, 0x8000_0000, 0x0000_0001, 0x3E80_0000, 0x3EFF_FFFF, 0x3F00_0000, 0x3F40_0000, 0x3F7F_FFFF, 0x3F80_0000, 0x7FC0_0000,
];

/// A table of shares of 0 to 1, and one of a random sort.
pub fn tables(rng: &mut Rng, sizes: &[u8], m: usize) -> [Vec<f32>; 2] {
    let total = expected::total(sizes, m) as usize;
    let mut sorted = vec![0.0; total];
    fill_table(rng, &mut sorted);
    [(0..total).map(|_| rng.unit()).collect(), sorted]
}

/// Every choice of an input for each ink from its list.
pub fn every(lists: &[Vec<f32>], mut call: impl FnMut(&[f32])) {
    let mut places = vec![0; lists.len()];
    let mut inputs: Vec<f32> = lists.iter().map(|list| list[0]).collect();
    loop {
        call(&inputs);
        let Some(ink) = (0..lists.len()).find(|&i| places[i] + 1 < lists[i].len()) else { return };
        for i in 0..=ink {
            places[i] = if i == ink { places[i] + 1 } else { 0 };
            inputs[i] = lists[i][places[i]];
        }
    }
}

/// Both tables of a grid, and in them every choice of special inputs of its inks, a signalling NaN among them.
pub fn special(run: &mut Run, rng: &mut Rng, sizes: &[u8], m: usize) {
    let signalling = f32::from_bits(NANS[4]);
    let lists: Vec<Vec<f32>> = sizes.iter().map(|&size| [special_inputs(size), vec![signalling]].concat()).collect();
    for table in tables(rng, sizes, m) {
        every(&lists, |inputs| run.hold(Lookup::good(sizes, m, &table, inputs)));
    }
}

/// One to three inks: every choice of special inputs.
pub fn short(run: &mut Run, rng: &mut Rng, long: bool) {
    run.kind("one ink, g 1 to 255, every special input");
    for g in 1..=255 {
        for m in 1..=4 {
            special(run, rng, &equal(g, 1), m);
        }
    }
    run.kind("two inks, g 1 to 4 and larger, every pair of special inputs");
    for g in [1, 2, 3, 4, 5, 9, 10, 17, 18, 33, 34, 65, 66, 129, 130, 255] {
        for m in if g < 5 { 1..=4 } else { 1..=1 } {
            special(run, rng, &equal(g, 2), m);
        }
    }
    run.kind("three inks, g 1 to 4, every triple of special inputs");
    for g in 1..=4 {
        for m in 1..=if long { 8 } else { 3 } {
            special(run, rng, &equal(g, 3), m);
        }
    }
    run.kind("three to five inks, g 2 and 3, every choice of ten inputs");
    let ten = TEN.map(f32::from_bits);
    for (g, n) in [(2, 3), (3, 3), (2, 4), (3, 4), (2, 5), (3, 5)] {
        for table in tables(rng, &equal(g, n), 1) {
            every(&vec![ten.to_vec(); n], |inputs| run.hold(Lookup::good(&equal(g, n), 1, &table, inputs)));
        }
    }
}

/// Each ink at each product just under a power of two, the others random. The table of n inks bounds g.
pub fn skips(run: &mut Run, rng: &mut Rng, long: bool) {
    run.kind("each ink just under each power of two, two to fifteen inks");
    for n in 2..=15 {
        let bound = if long { 40_000_000 } else { 2_000_000 };
        let sizes: Vec<u8> = [3, 4, 5, 6, 9, 10, 17, 18, 33, 34, 65, 66, 129, 130, 255]
            .into_iter()
            .filter(|&g| g == 3 || expected::total(&equal(g, n), 1) <= bound)
            .collect();
        for g in sizes {
            for table in tables(rng, &equal(g, n), 1) {
                each_skip(run, rng, &equal(g, n), &table);
            }
        }
    }
}

/// Each ink at each product just under a power of two that its size leaves room for.
pub fn each_skip(run: &mut Run, rng: &mut Rng, sizes: &[u8], table: &[f32]) {
    let mut inputs = vec![0.0; sizes.len()];
    for (ink, product) in (0..sizes.len()).flat_map(|ink| skipping(sizes[ink]).into_iter().map(move |product| (ink, product))) {
        for _ in 0..if sizes.len() < 9 { 12 } else { 2 } {
            random_numbers(rng, sizes, &mut inputs);
            inputs[ink] = product;
            run.hold(Lookup::good(sizes, 1, table, &inputs));
        }
    }
}

/// Document 01's lookups with checked answers: both oracles are held to them too. In case 12 the crate's text still gives what document 02 changed (E4).
/// P6's NaN has no answer: it is refusal 16 (E8).
pub fn checked(run: &mut Run) {
    run.kind("document 01's checked lookups (P6, P7, P8, and 12 with the answer 0 of E4)");
    let mut corner = vec![0.0; 8];
    corner[7] = 1.0;
    let mut case_12 = vec![0.0; 243];
    case_12[2] = 1.0;
    let ink_5 = f32::from_bits(0x3EFF_FFFF);
    let nan = Lookup::good(&[2], 1, &[0.0, 1.0][..], &[f32::NAN]);
    assert_eq!(nan.number(), 16, "the reading of document 02 does not refuse P6's NaN");
    run.hold(nan);
    let cases: [(u8, &[f32], &[f32], u32); 5] = [
        (2, &[0.0, 1.0], &[0.25], 0x3E80_0000),
        (2, &[0.0, 1.0], &[2.0], 0x3F80_0000),
        (2, &[0.0, 1.0, 2.0, 3.0], &[0.5, 0.25], 0x3FA0_0000),
        (2, &corner, &[0.5, 0.25, 0.75], 0x3E80_0000),
        (3, &case_12, &[0.0, 0.0, 0.0, 0.0, ink_5], 0),
    ];
    for (g, table, inputs, bits) in cases {
        let n = inputs.len();
        let answers = [oracle::rust_lookup(g, n, 1, table, inputs), oracle::definition::lookup(&equal(g, n), 1, table, inputs)];
        let rust_bits = if n == 5 { 0x3F7F_FFFF } else { bits };
        assert_eq!(answers.map(|a| a[0].to_bits()), [rust_bits, bits], "an oracle itself does not give the checked answer");
        run.hold(Lookup::good(&equal(g, n), 1, table, inputs));
    }
}
