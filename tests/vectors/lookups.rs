//! The lookups and nodes of the list.

use crate::calls::Ask;
use crate::grids::equal;
use crate::list::{Asked, List, Table, ROOM};
use crate::values::{fill_table, random_input, random_inputs, skipping, special_inputs, Rng, ENTRIES};
use oracle::expected;

pub fn total(sizes: &[u8], m: usize) -> usize {
    expected::total(sizes, m) as usize
}

/// The largest size whose table has at most `bound` entries.
fn largest(n: usize, m: usize, bound: usize) -> u8 {
    (1..=255).take_while(|&g| total(&equal(g, n), m) <= bound).last().unwrap_or(1)
}

/// A table by seed, shares or any bits in turn.
pub fn seeded(rng: &mut Rng, len: usize) -> Table {
    let seed = rng.next() as u32;
    if rng.one_in(2) { Table::Shares(len, seed) } else { Table::Bits(len, seed) }
}

/// A table of special entries, word by word.
pub fn special(rng: &mut Rng, len: usize) -> Table {
    Table::Words((0..len).map(|_| rng.pick(&ENTRIES)).collect())
}

/// A lookup with these sizes in use and a buffer of m entries and some more.
pub fn good(list: &mut List, sizes: &[u8], m: usize, table: &Table, inputs: &[f32], more: usize) {
    list.lookup(Asked::whole(sizes, m), table, inputs, m + more);
}

/// Document 01's cases P6, P7, P8 and 12, the last with the answer 0 of document 02's E4.
pub fn checked(list: &mut List) {
    let ones = |len: usize, place: usize| Table::Words((0..len).map(|i| if i == place { 0x3F80_0000 } else { 0 }).collect());
    for input in [0.25, f32::NAN, 2.0] {
        good(list, &[2], 1, &ones(2, 1), &[input], 0);
    }
    good(list, &[2, 2], 1, &Table::Words([0.0f32, 1.0, 2.0, 3.0].map(f32::to_bits).to_vec()), &[0.5, 0.25], 0);
    good(list, &[2; 3], 1, &ones(8, 7), &[0.5, 0.25, 0.75], 0);
    let ink_5 = f32::from_bits(0x3EFF_FFFF);
    good(list, &[3; 5], 1, &ones(243, 2), &[0.0, 0.0, 0.0, 0.0, ink_5], 0);
    // Ink 4 of five takes the next line too at this product.
    good(list, &[3; 5], 1, &ones(243, 6), &[0.0, 0.0, 0.0, ink_5, 0.0], 0);
}

/// Every n and m, with a small grid and, where it fits, a larger one.
pub fn every_count(list: &mut List, rng: &mut Rng) {
    for n in 1..=15 {
        for m in 1..=15 {
            let mut inputs = vec![0.0; n];
            for bound in [1_000, if m == 1 || m == n { ROOM - 3 } else { 3_000 }] {
                let most = largest(n, m, bound) as usize;
                let g = rng.within(most.min(2), most) as u8;
                let (longer, more) = (rng.pick(&[0, 0, 3]), rng.pick(&[0, 0, 1, 4]));
                let table = seeded(rng, total(&equal(g, n), m) + longer);
                random_inputs(rng, &[g], &mut inputs);
                good(list, &equal(g, n), m, &table, &inputs, more);
            }
        }
    }
    // Fifteen inks on two lines: the largest count that fits.
    for _ in 0..4 {
        let inputs: Vec<f32> = (0..15).map(|_| rng.unit()).collect();
        good(list, &[2; 15], 1, &Table::Shares(32_768, rng.next() as u32), &inputs, 0);
    }
}

/// Special inputs: alone, in pairs and in triples with ties.
pub fn special_values(list: &mut List, rng: &mut Rng) {
    for g in [1, 2, 3, 4, 5, 17, 33, 66, 130, 255] {
        for (i, input) in special_inputs(g).into_iter().enumerate() {
            let table = if g < 4 && i % 2 == 0 { special(rng, g as usize) } else { seeded(rng, g as usize) };
            good(list, &[g], 1, &table, &[input], i % 3);
        }
    }
    for n in 2..=7 {
        for _ in 0..60 {
            let g = rng.within(2, if n < 4 { 4 } else { 3 }) as u8;
            let values = special_inputs(g);
            let mut inputs = vec![0.0; n];
            for i in 0..n {
                inputs[i] = if i > 0 && rng.one_in(3) { inputs[i - 1] } else { rng.pick(&values) };
            }
            let (sizes, all) = (equal(g, n), total(&equal(g, n), 1));
            let table = if n < 4 && rng.one_in(2) { special(rng, all) } else { seeded(rng, all) };
            good(list, &sizes, 1, &table, &inputs, 0);
        }
    }
    // Ordinary inputs on tables of shares: three to six inks, where rounding shows the order of the steps.
    for i in 0..240 {
        let (n, m) = (3 + i % 4, 1 + i % 3);
        let g = rng.within(2, largest(n, m, 2_500) as usize) as u8;
        let mut inputs = vec![0.0; n];
        random_inputs(rng, &[g], &mut inputs);
        good(list, &equal(g, n), m, &Table::Shares(total(&equal(g, n), m), rng.next() as u32), &inputs, 0);
    }
}

/// Zeros of both signs in tables and inputs: one and two inks keep a stored −0.0, three and more do not.
pub fn signed_zeros(list: &mut List, rng: &mut Rng) {
    for n in 1..=5 {
        for _ in 0..16 {
            let words = (0..total(&equal(2, n), 1)).map(|_| rng.pick(&[0, 0x8000_0000, 0x8000_0000, 0x3F80_0000, 0xBF80_0000]));
            let table = Table::Words(words.collect());
            let inputs: Vec<f32> = (0..n).map(|_| rng.pick(&[-0.0, -0.0, 0.0, 1.0, 0.5])).collect();
            good(list, &equal(2, n), 1, &table, &inputs, 0);
        }
    }
}

/// Each ink at each product just under a power of two that its table leaves room for.
pub fn skips(list: &mut List, rng: &mut Rng) {
    for n in 1..=9 {
        let fitting: Vec<u8> = (3..=largest(n, 1, ROOM)).collect();
        for power in 0..8 {
            // The smallest size with this product, and one more line.
            let at_least = (1u32 << power) + 2;
            for &g in fitting.iter().filter(|&&g| g as u32 >= at_least && skipping(g).len() > power).take(2) {
                for ink in 0..n {
                    let mut inputs: Vec<f32> = (0..n).map(|_| random_input(rng, g)).collect();
                    inputs[ink] = skipping(g)[power];
                    good(list, &equal(g, n), 1, &Table::Shares(total(&equal(g, n), 1), rng.next() as u32), &inputs, 0);
                }
            }
        }
    }
}

/// Table, inputs and buffer at and around their limits, with a whole record and with a damaged one.
pub fn limits(list: &mut List, rng: &mut Rng) {
    for (g, n, m) in [(1, 1, 1), (2, 1, 15), (3, 2, 2), (2, 3, 4), (2, 4, 3), (2, 5, 1), (1, 15, 15), (2, 9, 2)] {
        around(list, rng, &equal(g, n), m, List::lookup);
    }
    // A refused layout leaves the zero record, which is refused 9.
    for (g, n, m) in [(2, 0, 1), (2, 16, 1), (2, 3, 0), (2, 3, 16), (0, 3, 3), (255, 5, 1), (4, 15, 4)] {
        let asked = Asked::of_counts([g; 16], n, m);
        list.lookup(asked, &Table::Shares(100, 1), &[0.5; 3], 3);
        list.node(asked, &Table::Shares(100, 1), &[0; 3]);
    }
}

/// One layout with every choice of short, exact and long table, inputs and buffer where at most one of them is wrong, and some more.
pub fn around(list: &mut List, rng: &mut Rng, sizes: &[u8], m: usize, ask: Ask) {
    let mut inputs = vec![0.0; 17];
    random_inputs(rng, sizes, &mut inputs);
    let (whole, n, all) = (Asked::whole(sizes, m), sizes.len(), total(sizes, m));
    for asked in [whole, Asked { place: 40, value: 0x8000_0000, ..whole }] {
        for table in [all - 1, all, all + 1, 0] {
            for count in [n - 1, n, n + 1] {
                for answer in [m - 1, m, m + 2] {
                    if table == all || count == n || answer == m || asked.place == 40 && table == 0 {
                        ask(list, asked, &seeded(rng, table), &inputs[..count], answer);
                    }
                }
            }
        }
    }
}

/// Every place of a record damaged: another bit, zero, one more, −0.0, NaN; and the value that it has.
pub fn damaged(list: &mut List, rng: &mut Rng) {
    for (g, n, m) in [(3, 4, 3), (2, 1, 1), (1, 3, 1), (2, 10, 2)] {
        each_place(list, rng, &equal(g, n), m);
    }
    // A grid of size 1 with one output: another n leaves the other rows as they are, but not the sizes.
    for n in [0, 1, 2, 5, 15, 16, u32::MAX] {
        for count in [2, 5] {
            list.lookup(Asked { place: 64, value: n, ..Asked::whole(&[1, 1], 1) }, &Table::Shares(1, 9), &vec![0.5; count], 1);
        }
    }
}

/// Each place of a record set to another value: to two sorts of values, of four and five inks to four.
pub fn each_place(list: &mut List, rng: &mut Rng, sizes: &[u8], m: usize) {
    let (whole, n) = (Asked::whole(sizes, m), sizes.len());
    let right = expected::record(&whole.sizes, n, m);
    let mut inputs = vec![0.0; n];
    random_inputs(rng, sizes, &mut inputs);
    let table = seeded(rng, total(sizes, m));
    for place in 0..right.len() as u32 {
        let value = right[place as usize];
        // Of a size only the low byte is taken.
        let bits = if (48..64).contains(&place) { 8 } else { 32 };
        let mut values = vec![value ^ 1 << rng.below(bits), value.wrapping_add(1)];
        values.push(if (32..48).contains(&place) { rng.pick(&[0x8000_0000, 0x7FC0_0000, 0x7F80_0000]) } else { 0 });
        values.push(value);
        for value in values.into_iter().skip(if n == 4 || n == 5 { 0 } else { 2 }) {
            list.lookup(Asked { place, value, ..whole }, &table, &inputs, m);
        }
        list.node(Asked { place, value: value ^ 1 << rng.below(8), ..whole }, &table, &vec![0; n]);
    }
}

/// Nodes: random ones of every count, coordinates at and past the last line, counts, tables.
pub fn nodes(list: &mut List, rng: &mut Rng) {
    for n in 1..=15 {
        for m in [1, 2, 3, 4, 15] {
            let g = largest(n, m, 2_000).min(rng.within(2, 9) as u8).max(1);
            let (whole, all) = (Asked::whole(&equal(g, n), m), total(&equal(g, n), m));
            let longer = rng.below(2);
            let table = seeded(rng, all + longer);
            let node: Vec<u32> = (0..n).map(|_| rng.below(g as usize) as u32).collect();
            list.node(whole, &table, &node);
            list.node(whole, &table, &vec![g as u32 - 1; n]);
            let mut outside = node.clone();
            outside[rng.below(n)] = rng.pick(&[g as u32, 255, 256, u32::MAX]);
            list.node(whole, &table, &outside);
            match rng.below(3) {
                0 => list.node(whole, &table.of_length(all - 1), &outside),
                1 => list.node(whole, &table, &node[..n - 1]),
                _ => list.node(whole, &table, &[&outside[..], &[0]].concat()),
            }
        }
    }
    let mut words = vec![0.0; 27];
    fill_table(rng, &mut words);
    list.node(Asked::whole(&[3; 3], 1), &Table::Words(words.iter().map(|x| x.to_bits()).collect()), &[2, 1, 0]);
}
