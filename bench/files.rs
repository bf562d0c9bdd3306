//! The time of writing and of reading a table file (document 02, E9), beside a plain Rust program of the same: with the layout, every
//! refusal and every check. A reader takes two passes, for nothing may be written before the last check.

use crate::{in_turn, library, values};
use std::hint::black_box;

/// Lines, inks and outputs: tables of 77 KB to 18 MB, and a small one, where a call's fixed cost shows.
const GRIDS: [(u8, usize, usize); 4] = [(9, 4, 3), (17, 4, 3), (33, 4, 4), (5, 3, 1)];

const ENTRIES: usize = 126;

fn word(bytes: &[u8]) -> u32 {
    u32::from_be_bytes(bytes.try_into().expect("four bytes"))
}

fn check(block: &[u8]) -> u32 {
    block[..508].chunks_exact(4).map(word).fold(0, u32::wrapping_add)
}

/// The total of accepted sizes, or the refusal.
fn total(sizes: &[u8], n: usize, m: usize) -> Result<usize, u32> {
    if !(1..=15).contains(&n) {
        return Err(1);
    }
    if !(1..=15).contains(&m) {
        return Err(2);
    }
    if sizes[..n].contains(&0) {
        return Err(3);
    }
    let total = sizes[..n].iter().try_fold(m as u32, |total, &size| total.checked_mul(size.into()));
    total.map(|total| total as usize).ok_or(5)
}

fn length(total: usize) -> usize {
    512 * (1 + total.div_ceil(ENTRIES))
}

fn write(sizes: &[u8; 16], n: usize, m: usize, table: &[f32], file: &mut [u8]) -> u32 {
    let total = match total(sizes, n, m) {
        Ok(total) => total,
        Err(refused) => return refused,
    };
    if table.len() < total {
        return 6;
    }
    if file.len() < length(total) {
        return 8;
    }
    let (head, rest) = file.split_at_mut(512);
    head.fill(0);
    (head[4], head[5]) = (n as u8, m as u8);
    head[6..6 + n].copy_from_slice(&sizes[..n]);
    let sum = check(head);
    head[508..].copy_from_slice(&sum.to_be_bytes());
    for (number, (block, part)) in (1u32..).zip(rest.chunks_exact_mut(512).zip(table[..total].chunks(ENTRIES))) {
        block[..4].copy_from_slice(&number.to_be_bytes());
        let mut sum = number;
        for (bytes, entry) in block[4..508].chunks_exact_mut(4).zip(part) {
            sum = sum.wrapping_add(entry.to_bits());
            bytes.copy_from_slice(&entry.to_bits().to_be_bytes());
        }
        block[4 + 4 * part.len()..508].fill(0);
        block[508..].copy_from_slice(&sum.to_be_bytes());
    }
    0
}

fn block_refusal(block: &[u8], number: u32, used: usize) -> u32 {
    if check(block) != word(&block[508..]) {
        return 18;
    }
    if word(&block[..4]) != number {
        return 19;
    }
    if block[used..508].iter().any(|&byte| byte != 0) { 20 } else { 0 }
}

fn read(file: &[u8], sizes: &mut [u8; 16], counts: [&mut usize; 2], entries: &mut [f32]) -> u32 {
    if file.len() < 512 {
        return 17;
    }
    let (head, rest) = file.split_at(512);
    let (n, m) = (head[4] as usize, head[5] as usize);
    let refused = block_refusal(head, 0, 6 + n.min(16));
    if refused != 0 {
        return refused;
    }
    let total = match total(&head[6..22], n, m) {
        Ok(total) => total,
        Err(refused) => return refused,
    };
    if file.len() != length(total) {
        return 17;
    }
    for (k, block) in rest.chunks_exact(512).enumerate() {
        let refused = block_refusal(block, k as u32 + 1, 4 + 4 * (total - ENTRIES * k).min(ENTRIES));
        if refused != 0 {
            return refused;
        }
    }
    if entries.len() < total {
        return 8;
    }
    for (block, part) in rest.chunks_exact(512).zip(entries[..total].chunks_mut(ENTRIES)) {
        for (bytes, entry) in block[4..508].chunks_exact(4).zip(part) {
            *entry = f32::from_bits(word(bytes));
        }
    }
    sizes.copy_from_slice(&head[6..22]);
    let [inks, outputs] = counts;
    (*inks, *outputs) = (n, m);
    0
}

/// The best time of each in ns for one entry: written, and then read. First the files and then the bits must be the same.
fn times(rng: &mut values::Rng, g: u8, n: usize, m: usize) -> [(f64, f64); 2] {
    let sizes = std::array::from_fn(|ink| if ink < n { g } else { 0 });
    let count = (g as usize).pow(n as u32) * m;
    let (table, calls) = ((0..count).map(|_| rng.bits()).collect::<Vec<f32>>(), 100_000 / count + 1);
    let (mut a, mut b) = (vec![1u8; length(count)], vec![2u8; length(count)]);
    let written = in_turn(
        || (0..calls).for_each(|_| assert_eq!(write(black_box(&sizes), n, m, black_box(&table), black_box(&mut a)), 0)),
        || (0..calls).for_each(|_| assert_eq!(library::write_table(black_box(&sizes), n, m, black_box(&table), black_box(&mut b)), 0)),
    );
    assert!(a == b, "g {g}, n {n}, m {m}: not the same file");
    let (mut c, mut d, mut of_rust, mut of_library) = (vec![0.0f32; count], vec![1.0f32; count], [0; 16], [0; 16]);
    let ([mut n_rust, mut m_rust], [mut n_library, mut m_library]) = ([0; 2], [0; 2]);
    let taken = in_turn(
        || (0..calls).for_each(|_| assert_eq!(read(black_box(&a), &mut of_rust, [&mut n_rust, &mut m_rust], black_box(&mut c)), 0)),
        || {
            (0..calls).for_each(|_| {
                assert_eq!(library::read_table(black_box(&a), &mut of_library, &mut n_library, &mut m_library, black_box(&mut d)), 0)
            })
        },
    );
    assert_eq!((of_rust, n_rust, m_rust), (of_library, n_library, m_library));
    let same = |x: &[f32]| x.iter().zip(&table).all(|(x, y)| x.to_bits() == y.to_bits());
    assert!(same(&c) && same(&d), "g {g}, n {n}, m {m}: not the same bits");
    [written, taken].map(|(rust, library)| (rust / (calls * count) as f64, library / (calls * count) as f64))
}

/// The rows of table files.
pub fn rows(rng: &mut values::Rng) {
    println!("ns per entry of a table file written and read");
    let [rust, library, ratio] = ["Rust program", "library", "library/Rust"];
    println!("{:>3} {:>3} {:>3} {:>9} {:>8} {rust:>12} {library:>12} {ratio:>14}", "n", "g", "m", "entries", "call");
    for (g, n, m) in GRIDS {
        let count = (g as usize).pow(n as u32) * m;
        for (call, (rust, library)) in ["write", "read"].into_iter().zip(times(rng, g, n, m)) {
            println!("{n:>3} {g:>3} {m:>3} {count:>9} {call:>8} {rust:>12.3} {library:>12.3} {:>14.2}", library / rust);
        }
    }
}
