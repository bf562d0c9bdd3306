//! NaN inputs (document 02, E8): each ink in turn, and beside every other refusal. In the list all have one pattern (list.rs).

use crate::calls::Ask;
use crate::grids::equal;
use crate::list::{Asked, List};
use crate::lookups::{good, seeded, total};
use crate::values::{random_numbers, Rng};

pub fn all(list: &mut List, rng: &mut Rng) {
    for n in 1..=15 {
        let most = if n < 9 { 3 } else { 2 };
        let sizes: Vec<u8> = if n % 2 == 0 { equal(most - 1, n) } else { (0..n).map(|ink| 1 + ink as u8 % most).collect() };
        each_ink(list, rng, &sizes, 1 + n % 4);
    }
    let grids: [(&[u8], usize); 6] = [(&[3], 1), (&[2, 3], 2), (&[2, 2, 2], 4), (&[3, 2, 2, 2], 3), (&[1, 2, 1, 2, 3], 1), (&[1; 15], 15)];
    for (sizes, m) in grids {
        beside(list, rng, sizes, m, List::lookup);
    }
}

/// Each ink in turn a NaN among numbers, and then an infinity, which is clipped.
fn each_ink(list: &mut List, rng: &mut Rng, sizes: &[u8], m: usize) {
    let table = seeded(rng, total(sizes, m));
    let mut inputs = vec![0.0; sizes.len()];
    for ink in 0..sizes.len() {
        random_numbers(rng, sizes, &mut inputs);
        for x in [f32::NAN, rng.pick(&[f32::INFINITY, f32::NEG_INFINITY])] {
            inputs[ink] = x;
            good(list, sizes, m, &table, &inputs, ink % 3);
        }
    }
}

/// A NaN at the first and at the last ink, and behind it, with a record that is whole or damaged, and a table, inputs and a buffer that are short or
/// exact, and one input too many: 16 comes after 9, 6, 7 and 8.
pub fn beside(list: &mut List, rng: &mut Rng, sizes: &[u8], m: usize, ask: Ask) {
    let (whole, n, all) = (Asked::whole(sizes, m), sizes.len(), total(sizes, m));
    let table = seeded(rng, all);
    let mut numbers = vec![0.0; n + 1];
    random_numbers(rng, sizes, &mut numbers);
    for asked in [whole, Asked { place: 47, value: 0x8000_0000, ..whole }] {
        for (entries, count, answer) in [all - 1, all].into_iter().flat_map(|e| [n - 1, n, n + 1].into_iter().flat_map(move |c| [(e, c, m - 1), (e, c, m)])) {
            for place in [0, n - 1, n].into_iter().filter(|&place| place < count) {
                let mut inputs = numbers[..count].to_vec();
                inputs[place] = f32::NAN;
                ask(list, asked, &table.of_length(entries), &inputs, answer);
            }
        }
    }
}
