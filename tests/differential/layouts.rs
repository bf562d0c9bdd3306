//! Layouts: every size and count, every pair of sizes, unequal sizes, totals at the limit, counts far outside. Of each the library is
//! asked for its total as well.

use crate::case::{are_unequal, Case, Run, Sort};
use crate::grids::{equal, grid, laid, Sizes};
use crate::library;
use crate::limits::COUNTS;
use crate::values::Rng;
use oracle::{expected, one_size};

/// The largest product of bytes that is accepted, with its factors shared out in two ways; the next one above it, 2^32; and others around these and 2^64.
pub const LIMITS: [(&[u8], usize); 10] = [
    (&[254, 226, 215, 174], 2), (&[2, 174, 215, 226, 254], 1), (&[181, 190, 181, 230], 3), (&[16, 128, 128, 128, 128], 1), (&[64, 64, 4, 64, 64, 64], 1),
    (&[64, 64, 64, 3, 64, 64], 1), (&[4, 4, 4, 4, 4, 4, 4, 8, 4, 4, 4, 4, 4, 4, 4], 1), (&[4, 4, 4, 4, 4, 4, 4, 8, 4, 4, 4, 4, 4, 4, 4], 2),
    (&[146, 215, 86, 43, 37], 1), (&[128, 128, 128, 2, 128, 128, 128, 128, 128, 128], 1),
];

#[derive(Clone)]
struct Layout {
    sizes: [u8; 16],
    n: usize,
    m: usize,
}

impl Layout {
    /// The three arrays that an accepted layout gives: the crate's with equal sizes, document 02's words with unequal ones.
    fn rows(&self) -> [[u32; 16]; 3] {
        if one_size(&self.sizes[..self.n]).is_some() {
            let rust = oracle::layout(self.sizes, self.n, self.m);
            return [rust.grid_strides, rust.grid_filling_size, rust.grid_scale.map(f32::to_bits)];
        }
        let record = expected::record(&self.sizes, self.n, self.m);
        [0, 16, 32].map(|from| std::array::from_fn(|ink| record[from + ink]))
    }

    /// What differs in the total that the library tells of the same layout: it has the layout's number, and on 0 the product.
    fn total_difference(&self, number: u32) -> Option<String> {
        let untouched = 0xA5A5_0004_A5A5_0005;
        let mut total = untouched;
        let got = library::total(&self.sizes, self.n, self.m, &mut total);
        if got != number {
            return Some(format!("the total's number is {got}, not {number}"));
        }
        let right = if number == 0 { expected::total(&self.sizes[..self.n], self.m) } else { untouched.into() };
        (u128::from(total) != right).then(|| format!("the total is {total} ({total:X}), not {right} ({right:X})"))
    }
}

impl Case for Layout {
    fn number(&self) -> u32 {
        expected::layout(&self.sizes, self.n, self.m)
    }

    fn unequal(&self) -> Option<Sort> {
        are_unequal(&self.sizes, self.n).then_some(Sort::Layout)
    }

    fn difference(&self) -> Option<String> {
        let untouched = [[0xA5A5_0001; 16], [0xA5A5_0002; 16], [0xFFA5_0003; 16]];
        let ([mut strides, mut filling, scale], number) = (untouched, self.number());
        let mut scale = scale.map(f32::from_bits);
        let got = library::layout(&self.sizes, self.n, self.m, &mut strides, &mut filling, &mut scale);
        if got != number {
            return Some(format!("the number is {got}, not {number}"));
        }
        let right = if number == 0 { self.rows() } else { untouched };
        let rows = [strides, filling, scale.map(f32::to_bits)];
        if rows != right {
            return Some(format!("\n  the library gives {rows:X?}\n  and not           {right:X?}"));
        }
        self.total_difference(number)
    }

    fn smaller(&self, take: &mut dyn FnMut(Self) -> bool) {
        if self.n > 1 && self.n < 17 && take(Layout { n: self.n - 1, ..self.clone() }) {
            return;
        }
        if self.m > 1 && self.m < 17 && take(Layout { m: self.m - 1, ..self.clone() }) {
            return;
        }
        let all = self.sizes.map(|size| size.saturating_sub(1).max(1));
        if self.sizes != all && take(Layout { sizes: all, ..self.clone() }) {
            return;
        }
        for ink in (0..self.n.min(16)).filter(|&ink| self.sizes[ink] > 1) {
            let mut call = self.clone();
            call.sizes[ink] -= 1;
            if take(call) {
                return;
            }
        }
    }

    fn shown(&self) -> String {
        format!("layout and its total: sizes {:?}, n {}, m {}", self.sizes, self.n, self.m)
    }
}

pub fn all(run: &mut Run, rng: &mut Rng) {
    run.kind("layouts and their totals, every g 0 to 255, n 0 to 17, m 0 to 17");
    for g in 0..=255 {
        for n in 0..=17 {
            for m in 0..=17 {
                run.hold(Layout { sizes: [g; 16], n, m });
            }
        }
    }
    run.kind("layouts of two inks and their totals, every pair of sizes 1 to 255");
    for (a, b) in (1..=255).flat_map(|a| (1..=255).map(move |b| (a, b))) {
        run.hold(Layout { sizes: laid(rng, &[a, b]), n: 2, m: rng.within(1, 15) });
    }
    run.kind("layouts and their totals with some other sizes or zeros among equal ones, and counts far outside");
    for _ in 0..100_000 {
        let mut sizes = [rng.pick(&[1, 2, 3, 4, 9, 17, 84, 138, 255]); 16];
        for _ in 0..rng.below(3) {
            sizes[rng.below(16)] = rng.pick(&[0, 1, 2, 3, 255]);
        }
        let mut count = || if rng.one_in(6) { rng.pick(&COUNTS) } else { rng.within(1, 15) };
        run.hold(Layout { sizes, n: count(), m: count() });
    }
    unequal(run, rng);
    limit(run, rng);
    same_record();
}

/// Random unequal sizes: of small grids, and of any total.
fn unequal(run: &mut Run, rng: &mut Rng) {
    run.kind("layouts and their totals with random unequal sizes, of small grids and of any total: none is refused with 4");
    for i in 0..200_000 {
        let bound = rng.pick(&[100, 4_000, 1_000_000, expected::LARGEST_TOTAL, 8 * expected::LARGEST_TOTAL]);
        let (mut used, m) = grid(rng, bound, Sizes::Unequal);
        if i % 4 == 0 {
            used = (0..rng.within(2, 15)).map(|_| rng.within(usize::from(i % 64 != 0), 255) as u8).collect();
        }
        run.hold(Layout { sizes: laid(rng, &used), n: used.len(), m });
    }
}

/// Sizes whose product with m is as near to 4,294,967,295 as a last size allows, and one line more; then those of `LIMITS`.
fn limit(run: &mut Run, rng: &mut Rng) {
    run.kind("layouts and their totals with unequal sizes and totals at 4,294,967,295 and above");
    let mut list: Vec<(Vec<u8>, usize)> = LIMITS.iter().map(|&(used, m)| (used.to_vec(), m)).collect();
    for _ in 0..200_000 {
        let (n, m) = (rng.within(4, 15), rng.within(1, 15));
        let mut used: Vec<u8> = Vec::new();
        while used.len() < n - 1 {
            let room = (expected::LARGEST_TOTAL / expected::total(&used, m)).clamp(1, 255) as usize;
            used.push(rng.within(1, if used.len() + 5 > n { room } else { room.min(9) }) as u8);
        }
        let (last, place) = (expected::LARGEST_TOTAL / expected::total(&used, m), rng.below(n));
        for size in [last, last + 1].into_iter().filter(|size| (1..=255).contains(size)) {
            list.push(([&used[..place], &[size as u8], &used[place..]].concat(), m));
        }
    }
    // All of 255 lines but one ink of another size, at each ink.
    for (n, ink, other) in (2..=15).flat_map(|n| (0..n).flat_map(move |ink| [1, 2, 254].map(|other| (n, ink, other)))) {
        let used = [equal(255, ink), vec![other], equal(255, n - ink - 1)].concat();
        list.extend([(used.clone(), 1), (used, 15)]);
    }
    let totals: Vec<u128> = list.iter().map(|(used, m)| expected::total(used, *m)).collect();
    let accepted = totals.iter().filter(|&&total| total <= expected::LARGEST_TOTAL).max();
    let refused = totals.iter().filter(|&&total| total > expected::LARGEST_TOTAL).min();
    println!("            the totals nearest to 4294967295 are {} and {}", accepted.unwrap_or(&0), refused.unwrap_or(&0));
    for (used, m) in list {
        run.hold(Layout { sizes: laid(rng, &used), n: used.len(), m });
    }
}

/// Document 02's words and the crate's arrays say the same record where sizes are equal.
fn same_record() {
    for g in 1..=255 {
        for (n, m) in (1..=15).flat_map(|n| (1..=15).map(move |m| (n, m))) {
            if expected::layout(&[g; 16], n, m) == 0 {
                let (crates, words) = (oracle::layout([g; 16], n, m), expected::record(&[g; 16], n, m));
                assert_eq!(crates.grid_strides, words[..16]);
                assert_eq!(crates.grid_filling_size, words[16..32]);
                assert_eq!(crates.grid_scale.map(f32::to_bits), words[32..48]);
            }
        }
    }
}
