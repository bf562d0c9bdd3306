//! Lookups at and around every limit, alone and two at a time, without a NaN input and with one, so that the order of the refusals shows.

use crate::case::Run;
use crate::grids::{equal, padded};
use crate::lookups::{hold, Hold, Lookup};
use crate::values::{fill_table, random_numbers, Rng, NANS};
use oracle::expected;

/// Counts that are outside 1..15, or would be inside if they were cut to fewer bits.
pub const COUNTS: [usize; 10] =
    [0, 16, 17, 255, 256 + 3, (1 << 16) + 3, (1 << 32) + 3, (1 << 32) + 1, 1 << 63, usize::MAX];

/// The sizes as they are, and with zeros or other sizes at the ends of those in use and of those that are not.
fn changed_sizes(used: &[u8]) -> Vec<[u8; 16]> {
    let (n, whole) = (used.len(), padded(used));
    let mut list = vec![whole];
    for place in [0, n - 1, n.min(15), 15] {
        for size in [0, whole[place] ^ 1, 255] {
            let mut sizes = whole;
            sizes[place] = size;
            list.push(sizes);
        }
    }
    // A zero and another size at once, wherever they stand; then two sizes that change places.
    if n > 2 {
        for (zero, other) in [(n - 1, 1), (1, n - 1)] {
            let mut sizes = whole;
            (sizes[zero], sizes[other]) = (0, whole[other] ^ 1);
            list.push(sizes);
        }
        let mut sizes = whole;
        sizes.swap(0, n - 1);
        list.push(sizes);
    }
    list
}

pub fn lookups(run: &mut Run, rng: &mut Rng) {
    let kinds = ["lookups around every limit, every pair of them", "lookups with unequal sizes around every limit, every pair of them"];
    all(run, rng, kinds, hold);
}

/// With equal sizes, and then with unequal ones, a kind each.
pub fn all(run: &mut Run, rng: &mut Rng, [of_equal, of_unequal]: [&'static str; 2], hold: Hold) {
    run.kind(of_equal);
    for (g, n, m) in [(1, 1, 1), (1, 15, 15), (2, 1, 1), (2, 2, 3), (3, 3, 4), (2, 4, 15), (3, 5, 1), (2, 8, 3), (2, 11, 1), (255, 1, 2)] {
        around(run, rng, &equal(g, n), m, hold);
    }
    run.kind(of_unequal);
    let grids: [(&[u8], usize); 5] = [(&[2, 3], 1), (&[3, 2], 3), (&[4, 1, 2], 4), (&[2, 3, 1, 2, 3], 1), (&[1, 2, 1, 2, 1, 2, 1, 3], 2)];
    for (sizes, m) in grids {
        around(run, rng, sizes, m, hold);
    }
}

/// Counts against everything, with the sizes as they are; then the sizes against everything.
fn around(run: &mut Run, rng: &mut Rng, used: &[u8], m: usize, hold: Hold) {
    let (n, total) = (used.len(), expected::total(used, m) as usize);
    let mut table = vec![0.0; total + 1];
    fill_table(rng, &mut table);
    let mut inputs = vec![0.0; 17];
    random_numbers(rng, used, &mut inputs);
    let ns: Vec<usize> = COUNTS.iter().copied().chain([n, n - 1, n + 1]).collect();
    let ms: Vec<usize> = COUNTS.iter().copied().chain([m, m - 1, m + 1]).collect();
    let whole = (n, m, total);
    for &n_asked in &ns {
        for &m_asked in &ms {
            lent(whole, padded(used), n_asked, m_asked, &table, &inputs, |call| hold(run, call));
        }
    }
    for sizes in changed_sizes(used) {
        for (n_asked, m_asked) in [(n, m), (n, 16), (16, m), (n, 0), (n + 1, m)] {
            lent(whole, sizes, n_asked, m_asked, &table, &inputs, |call| hold(run, call));
        }
    }
}

/// One layout with every choice of short, exact and long table, inputs and buffer; no NaN among the inputs, one at the first or the last of the
/// inks, and one behind them.
fn lent(whole: (usize, usize, usize), sizes: [u8; 16], n: usize, m: usize, table: &[f32], inputs: &[f32], mut hold: impl FnMut(Lookup)) {
    let (inks, outputs, total) = whole;
    for table_len in [total - 1, total, total + 1, 0] {
        for inputs_len in [inks - 1, inks, inks + 1, 0, 17] {
            for answer in [outputs - 1, outputs, outputs + 1, 0] {
                for nan in [usize::MAX, 0, inks - 1, inks] {
                    let (table, mut inputs) = ((&table[..table_len]).into(), inputs[..inputs_len].to_vec());
                    inputs.iter_mut().skip(nan).take(1).for_each(|x| *x = f32::from_bits(NANS[(table_len + inputs_len + answer) % NANS.len()]));
                    hold(Lookup { sizes, n, m, table, inputs, answer });
                }
            }
        }
    }
}
