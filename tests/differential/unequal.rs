//! Lookups with unequal sizes over whole sets: special inputs, every order of the sizes, and each ink in turn with more lines than the others.

use crate::case::Run;
use crate::exhaustive::{each_skip, special, tables};
use crate::grids::{orders, padded};
use crate::lookups::Lookup;
use crate::values::{random_numbers, skipping, Rng};
use oracle::expected;

pub fn lookups(run: &mut Run, rng: &mut Rng, long: bool) {
    run.kind("two inks of unequal sizes, every pair of special inputs");
    for pair in [[1, 2], [2, 3], [3, 4], [1, 255], [2, 255], [9, 17], [3, 130], [34, 66]] {
        for (order, m) in orders(&pair).into_iter().flat_map(|order| [(order.clone(), 1), (order, 2)]) {
            special(run, rng, &order, m);
        }
    }
    run.kind("three inks of unequal sizes, every triple of special inputs, in every order of the sizes");
    for triple in [[1, 2, 3], [2, 2, 3], [2, 3, 4]] {
        for order in orders(&triple) {
            special(run, rng, &order, if long { 3 } else { 1 });
        }
    }
    run.kind("three to six inks of unequal sizes, random inputs, in every order of the sizes");
    let grids: [&[u8]; 6] = [&[1, 17, 255], &[2, 5, 9], &[1, 2, 3, 5], &[2, 2, 2, 3], &[1, 2, 3, 4, 5], &[2, 2, 2, 3, 3, 4]];
    for order in grids.into_iter().flat_map(orders) {
        let mut inputs = vec![0.0; order.len()];
        for table in tables(rng, &order, 1) {
            for _ in 0..if long { 200 } else { 20 } {
                random_numbers(rng, &order, &mut inputs);
                run.hold(Lookup::good(&order, 1, &table, &inputs));
            }
        }
    }
    more_lines(run, rng);
}

/// The lines of the one ink that has many: the fewest with which p+1 skips a node just under each power of two, and the most that there are.
const MANY: [u8; 9] = [3, 4, 6, 10, 18, 34, 66, 130, 255];

/// Each ink in turn with many lines among inks of 1 and 2, just under each power of two: from the fifth ink on just under 128 too, as with no equal sizes.
fn more_lines(run: &mut Run, rng: &mut Rng) {
    run.kind("each ink in turn with 3 to 255 lines among inks of 1 and 2, just under each power of two, two to fifteen inks");
    let mut past = 0;
    for (n, ink) in (2..=15).flat_map(|n| (0..n).map(move |ink| (n, ink))) {
        for lines in MANY.into_iter().filter(|&lines| n < 9 || [3, 34, 130, 255].contains(&lines)) {
            let mut sizes: Vec<u8> = (0..n).map(|i| if i % 3 == ink % 3 { 1 } else { 1 + u8::from(i % 2 == 0) }).collect();
            sizes[ink] = lines;
            assert_eq!(expected::layout(&padded(&sizes), n, 1), 0);
            for table in tables(rng, &sizes, 1) {
                each_skip(run, rng, &sizes, &table);
            }
            past += usize::from(ink >= 4 && skipping(lines).iter().any(|&x| oracle::skips(lines, x) && x * f32::from(lines - 1) > 127.0));
        }
    }
    assert!(past > 0, "no ink from the fifth on stands just under 128");
    println!("            in {past} of these layouts an ink from the fifth on stands just under 128");
}
