//! Document 02's E4: the products at which the rounded p+1 skips a node, the definition that stands in for the crate's text there, and lookups in
//! every layout where it happens.
//!
//! p+1 skips a node just under 1, 2, 4, .., 128. That is excepted where the node after the next is a line of the grid, so just under 2^k only with
//! g of at least 2^k + 2. Five inks leave g at most 84 (85⁵ is above 4,294,967,295), and more inks leave less: 40, 23, 15, 11, 9, 7, 6, 5, 4, 4.
//! So an accepted lookup is excepted up to just under 64 with five inks, 32 with six, 16 with seven, 8 with eight and nine, 4 with ten to twelve
//! and 2 with more; and never just under 128, which needs g of at least 130. With unequal sizes an ink from the fifth on may have as many: unequal.rs.

use crate::case::{Case, Run};
use crate::grids::{equal, Sizes};
use crate::huge::{around, Zeros};
use crate::lookups::Lookup;
use crate::random::good;
use crate::values::{after, before, random_numbers, with_products, Rng};
use oracle::{definition::product, expected};
use std::time::Instant;

/// The floats just under 1, 2, 4, .., 128.
fn products() -> [f32; 8] {
    std::array::from_fn(|k| before((1u32 << k) as f32))
}

/// The condition at every product: the rounded p+1 skips a node at these eight and at no other.
pub fn condition() {
    let (began, end) = (Instant::now(), 255f32.to_bits());
    let found: Vec<u32> = (0..end).filter(|&bits| oracle::passes(f32::from_bits(bits))).collect();
    assert_eq!(found, products().map(f32::to_bits), "p+1 skips a node at other products");
    let took = began.elapsed().as_secs_f64();
    println!("{end:>10}  products from 0 to below 255, no calls: the rounded p+1 skips a node just under 1, 2, 4, .., 128 alone ({took:.1} s)");
}

/// Codes of one byte or two, divided by 255 or 65535, skip no node in a grid that five inks can have; the percent 20 times the rounded 1/100 does.
pub fn codes() {
    for g in 3..=84 {
        for most in [255u16, 65535] {
            assert!((0..=most).all(|code| !oracle::skips(g, f32::from(code) / f32::from(most))), "a code of {most} skips a node in a grid of {g} lines");
        }
    }
    assert!(oracle::skips(6, 20.0 * 0.01), "20 percent skips no node in a grid of 6 lines");
}

/// The definition against the crate's text, in random lookups that are not excepted, of every count of inks.
pub fn definition(rng: &mut Rng) {
    let as_rust = "lookups that are not excepted, no calls: the definition answers as the Rust text";
    agrees(rng, Sizes::Equal, as_rust, |call| oracle::rust_lookup(call.sizes[0], call.n, call.m, &call.table, &call.inputs));
    let as_blend = "such lookups with unequal sizes, no calls: the definition answers as the Rust text with ICC.1's strides";
    agrees(rng, Sizes::Unequal, as_blend, |call| oracle::rust_blend(&expected::record(&call.sizes, call.n, call.m), &call.table, &call.inputs));
}

fn agrees(rng: &mut Rng, sizes: Sizes, told: &str, rust: impl Fn(&Lookup) -> Vec<f32>) {
    let (began, mut done) = (Instant::now(), [0; 16]);
    let fewest = if sizes == Sizes::Equal { 1 } else { 2 };
    while done.iter().sum::<usize>() < 100_000 || done[fewest..].contains(&0) {
        let mut call = good(rng, sizes);
        for _ in 0..8 {
            random_numbers(rng, &call.sizes[..call.n], &mut call.inputs);
            if !call.inputs.iter().zip(&call.sizes).skip(4).any(|(&x, &size)| oracle::skips(size, x)) {
                let defined = oracle::definition::lookup(call.used(), call.m, &call.table, &call.inputs);
                let rust = rust(&call);
                assert!(oracle::same(&defined, &rust), "the definition gives {defined:?}, the Rust text {rust:?}\n{}", call.shown());
                done[call.n] += 1;
            }
        }
    }
    let (sum, many, took) = (done.iter().sum::<usize>(), done[5..].iter().sum::<usize>(), began.elapsed().as_secs_f64());
    println!("{sum:>10}  {told}, {many} of five to fifteen inks ({took:.1} s)");
}

/// The examples of docs/DIFFERENCES.md: g, the bits of ink 5, and those of its weight. The product is just under 1, 2, 4, .., 64 in turn.
const EXAMPLES: [(u8, u32, u32); 7] = [
    (3, 0x3EFF_FFFF, 0x3F7F_FFFF), (4, 0x3F2A_AAAA, 0x3F7F_FFFE), (6, 0x3F4C_CCCC, 0x3F7F_FFFC), (10, 0x3F63_8E38, 0x3F7F_FFF8),
    (18, 0x3F70_F0F0, 0x3F7F_FFF0), (34, 0x3F78_3E0F, 0x3F7F_FFE0), (66, 0x3F7C_0FC0, 0x3F7F_FFC0),
];

/// Five inks, four of them at 0, and a 1 at one node: the line just above ink 5 answers the weight, the one after it 0, and in the Rust text the other way round.
pub fn examples(run: &mut Run) {
    run.kind("an example of each product where p+1 skips a node in an accepted lookup, at both nodes (docs/DIFFERENCES.md)");
    for (k, (g, ink, weight)) in EXAMPLES.into_iter().enumerate() {
        let inputs = [0.0, 0.0, 0.0, 0.0, f32::from_bits(ink)];
        assert_eq!(product(g, inputs[4]), products()[k], "the product of example {k}");
        let Some(mut zeros) = Zeros::new(expected::total(&[g; 5], 1) as usize) else {
            println!("            no address space for g {g}, n 5: left out");
            continue;
        };
        for (line, answers) in [(1 << k, [weight, 0]), ((1 << k) + 1, [0, weight])] {
            let table = zeros.entries();
            table[line] = 1.0;
            let found = [oracle::lookup(&[g; 5], 1, table, &inputs), oracle::rust_lookup(g, 5, 1, table, &inputs)];
            assert_eq!(found.map(|a| a[0].to_bits()), answers, "the oracles' answers in example {k} with a 1 at line {line}");
            run.hold(Lookup::good(&[g; 5], 1, &*table, &inputs));
            zeros.entries()[line] = 0.0;
        }
    }
}

/// Every n, g and product with which an accepted lookup is excepted: each ink from the fifth on at that product, then two of them.
pub fn lookups(run: &mut Run, rng: &mut Rng, long: bool) {
    run.kind("an ink from the fifth on where p+1 skips a node (E4): every count of inks, size and product where it can");
    let ([excepted, parted], mut calls, mut highest) = (run.excepted, 0, Vec::new());
    for n in 5..=15 {
        let mut reached = 0.0;
        for g in (3..=255).take_while(|&g| expected::layout(&[g; 16], n, 1) == 0) {
            let m = (1..=rng.within(1, 4)).take_while(|&m| expected::layout(&[g; 16], n, m) == 0).last().unwrap_or(1);
            let Some(mut zeros) = Zeros::new(expected::total(&equal(g, n), m) as usize) else {
                println!("            no address space for g {g}, n {n}, m {m}: left out");
                continue;
            };
            for p in products() {
                for x in with_products(g, p).filter(|&x| oracle::skips(g, x)) {
                    assert!(!oracle::excepted(g, &[x; 4]), "the first four inks are never excepted");
                    calls += each(run, rng, &equal(g, n), m, zeros.entries(), x, if long { 8 } else { 1 });
                    reached = p;
                }
            }
        }
        highest.push(format!("{n} inks: {}", after(reached)));
    }
    let [excepted, parted] = [run.excepted[0] - excepted, run.excepted[1] - parted];
    println!("            just under, at the highest: {}", highest.join(", "));
    println!("            {excepted} excepted; in {parted} of them the Rust text answers otherwise");
    // The entries are random: two nodes answer the same by chance alone, once in some million calls.
    assert!(excepted == calls && parted + 2 >= excepted && parted > 0, "of {calls} calls not every one is excepted and answered otherwise");
}

/// Each ink from the fifth on, then two of them, at an input; the others are random, and so are the entries around them. Answers how many calls.
fn each(run: &mut Run, rng: &mut Rng, sizes: &[u8], m: usize, table: &mut [f32], x: f32, times: usize) -> u64 {
    let (mut calls, n) = (0, sizes.len());
    let mut inputs = vec![0.0; n];
    for (ink, two) in (4..n).flat_map(|ink| [(ink, false), (ink, true)]).flat_map(|choice| (0..times).map(move |_| choice)) {
        random_numbers(rng, sizes, &mut inputs);
        inputs[ink] = x;
        if two && n > 5 {
            inputs[4 + (ink - 4 + rng.within(1, n - 5)) % (n - 4)] = x;
        }
        around(rng, table, sizes, m, &inputs);
        run.hold(Lookup::good(sizes, m, &*table, &inputs));
        calls += 1;
    }
    calls
}
