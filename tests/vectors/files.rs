//! The table files of the list (document 02, E9).

use crate::filed::Bits;
use crate::grids::padded;
use crate::list::{Asked, List};
use crate::values::{random_nan, Rng, ENTRIES};
use oracle::{expected, files};

pub fn all(list: &mut List, rng: &mut Rng) {
    fillings(list, rng);
    written(list, rng);
    records(list, rng);
    damaged(list, rng);
    lengths(list, rng);
    heads(list, rng);
    blocks(list, rng);
    order(list, rng);
}

/// Sizes and m with this total, in several shapes.
fn shape(total: usize) -> (Vec<u8>, usize) {
    match total {
        _ if total % 12 == 0 => (vec![3, (total / 12) as u8, 1], 4),
        _ if total % 5 == 0 => (vec![(total / 5) as u8], 5),
        _ if total % 4 == 0 => (vec![2, (total / 4) as u8], 2),
        _ => (vec![total as u8], 1),
    }
}

/// Entries of which some are NaN, zeros, subnormals and infinities.
fn entries(rng: &mut Rng, len: usize) -> Vec<f32> {
    let special = |rng: &mut Rng| if rng.one_in(2) { random_nan(rng) } else { f32::from_bits(rng.pick(&ENTRIES)) };
    (0..len).map(|_| if rng.one_in(3) { special(rng) } else { rng.bits() }).collect()
}

fn file(rng: &mut Rng, sizes: &[u8], m: usize) -> Vec<u8> {
    files::file(sizes, m, &entries(rng, expected::total(sizes, m) as usize))
}

/// A file with small entries, so that the list stays short.
fn plain(rng: &mut Rng, sizes: &[u8], m: usize) -> Vec<u8> {
    let list: Vec<f32> = (0..expected::total(sizes, m)).map(|_| f32::from_bits(rng.within(1, 15) as u32)).collect();
    files::file(sizes, m, &list)
}

fn old(rng: &mut Rng, len: usize) -> Bits {
    Bits::Seeded(len, rng.next() as u32)
}

/// A block's check put right.
fn put_right(file: &mut [u8], block: usize) {
    let block = &mut file[512 * block..][..512];
    let check = files::check(block);
    block[508..].copy_from_slice(&check.to_be_bytes());
}

/// Every length of filling, from 125 entries to none, written and read, with a little more room.
fn fillings(list: &mut List, rng: &mut Rng) {
    for total in 1..=126 {
        let (sizes, m) = shape(total);
        let (longer, file) = (total + rng.below(2), if total % 2 == 0 { file(rng, &sizes, m) } else { plain(rng, &sizes, m) });
        list.write_file(Asked::whole(&sizes, m), &old(rng, longer), 1_024 + rng.below(4), rng.within(1, 255) as u8);
        list.read_file(&old(rng, longer), &file);
    }
}

/// Writes with other entries past the total, of NaN of every kind, of several blocks, and with every length at, below and above what is
/// needed.
fn written(list: &mut List, rng: &mut Rng) {
    for (sizes, m) in [(&[1][..], 1), (&[127], 1), (&[7, 3, 3], 4), (&[5, 5, 5], 3), (&[1; 15], 15), (&[2, 3, 1, 3, 7, 1, 2], 3)] {
        let (total, length) = (expected::total(sizes, m) as usize, files::length(expected::total(sizes, m)) as usize);
        let words: Vec<u32> = entries(rng, total + 3).iter().map(|entry| entry.to_bits()).collect();
        list.write_file(Asked::whole(sizes, m), &Bits::Words(words), length, 0xEE);
    }
    for (sizes, total, length) in [([1], 1, 1_024), ([127], 127, 1_536)] {
        for (table, room) in [(0, 9), (total - 1, 9), (total - 1, 512), (total - 1, length), (total, 0), (total, 9), (total, 512)] {
            list.write_file(Asked::whole(&sizes, 1), &old(rng, table), room, 0x11);
        }
        for (table, room) in [(total, length - 1), (total, length), (total, length + 1), (total + 1, length - 1), (total + 9, length + 9)] {
            list.write_file(Asked::whole(&sizes, 1), &old(rng, table), room, 0x11);
        }
    }
}

/// Records that no layout gives, before a short table and a short buffer; refused layouts leave the record of zeros.
fn records(list: &mut List, rng: &mut Rng) {
    let asked = Asked::whole(&[2, 3], 2);
    for place in [0, 1, 15, 16, 31, 32, 33, 47, 48, 49, 50, 63, 64, 65] {
        let value = if place == 32 { 0x4000_0000 } else { asked.record()[place as usize] ^ 1 };
        for (table, room) in [(12, 1_024), (11, 40)] {
            list.write_file(Asked { place, value, ..asked }, &old(rng, table), room, 0);
        }
    }
    for (sizes, n, m) in [([2; 16], 0, 1), ([2; 16], 16, 1), ([2; 16], 3, 0), ([2; 16], 3, 16), ([0; 16], 3, 3), ([255; 16], 5, 1)] {
        list.write_file(Asked::of_counts(sizes, n, m), &old(rng, 9), 16, 3);
    }
    // Accepted, but far too large for what is lent: 6.
    for (sizes, n, m) in [([255; 16], 4, 1), ([4; 16], 15, 3), (padded(&[2, 174, 215, 226, 254]), 5, 1)] {
        list.write_file(Asked::of_counts(sizes, n, m), &old(rng, 9), 16, 3);
    }
}

/// Each kind of place changed, in block 0, a middle block and the last, with the check put right and not: the number, the first and the
/// last of the contents, the ends of the filling, the check.
fn damaged(list: &mut List, rng: &mut Rng) {
    for (sizes, total, more) in [(&[43, 3][..], 129, 2), (&[126], 126, 1)] {
        let good = plain(rng, sizes, 1);
        let last = good.len() / 512 - 1;
        let used = 512 * last + 4 + 4 * ((total - 1) % 126 + 1);
        let head = [0, 3, 4, 5, 6, 7, 6 + sizes.len(), 21, 22, 23, 507, 508, 511];
        let later = [1, last].map(|block| [0, 1, 2, 3, 4, 7, 504, 507, 508, 511].map(|place| 512 * block + place)).concat();
        for place in head.into_iter().chain(later).chain([used - 1, used, used + 3]) {
            for right in [false, true].into_iter().take(more) {
                let mut file = good.clone();
                file[place] ^= 1 << rng.below(8);
                if right || more == 1 {
                    put_right(&mut file, place / 512);
                }
                let room = if files::found(&file, total).0 == 0 { total } else { 3 };
                list.read_file(&old(rng, room), &file);
                if place < 512 {
                    list.file_layout(&file[..512]);
                }
            }
        }
        // The filling of the last block as negative zeros.
        if used % 512 != 508 {
            let mut file = good.clone();
            file[used] = 0x80;
            put_right(&mut file, last);
            list.read_file(&old(rng, total), &file);
        }
    }
}

/// Lengths off by one and by a block, and short of block 0; the layout alone is there from 512 bytes on.
fn lengths(list: &mut List, rng: &mut Rng) {
    for (sizes, total) in [([1], 1), ([126], 126), ([127], 127)] {
        let good = plain(rng, &sizes, 1);
        let mut longer = good.clone();
        longer.extend(files::block((good.len() / 512) as u32, &[]));
        let whole = good.len();
        for length in [0, 1, 4, 22, 508, 511, 512, 513, 1_023, whole - 512, whole - 1, whole, whole + 1, whole + 511, whole + 512] {
            list.read_file(&old(rng, 2), &longer[..length]);
        }
        for length in [0, 511, 512, 513, whole] {
            list.file_layout(&longer[..length]);
        }
        for room in [0, total - 1, total, total + 2] {
            list.read_file(&old(rng, room), &good);
        }
    }
}

/// Block 0, with a block after it and alone, with every sort of n, m and sizes: none in use, some not in use and not 0, zeros in use,
/// totals around the largest.
fn heads(list: &mut List, rng: &mut Rng) {
    let mut head = |n: u8, m: u8, sizes: &[u8]| {
        let file = [files::block(0, &[&[n, m], sizes].concat()), files::block(1, &[0, 0, 0, 7])].concat();
        list.file_layout(&file);
        list.read_file(&old(rng, 1), &file);
        list.read_file(&old(rng, 1), &file[..512]);
    };
    for n in [0, 1, 2, 14, 15, 16, 17, 127, 128, 255] {
        head(n, 1, &[]);
        head(n, 1, &vec![1; n.min(16) as usize]);
        head(n, 1, &[1; 16]);
        head(n, 1, &[vec![1; n.min(16) as usize], vec![0; 16 - n.min(16) as usize], vec![1]].concat());
    }
    for m in [0, 1, 2, 15, 16, 17, 128, 255] {
        head(1, m, &[1]);
    }
    for sizes in [&[0][..], &[0, 1], &[1, 0], &[2, 0, 2], &[255, 255, 255, 0]] {
        head(sizes.len() as u8, 1, sizes);
    }
    let large = [254, 226, 215, 174];
    for (sizes, m) in [(&large[..], 2), (&large, 3), (&[16, 128, 128, 128, 128], 1), (&[255; 15], 15)] {
        head(sizes.len() as u8, m, sizes);
    }
}

/// Blocks that changed places, one twice, one left out; a number wrong with the check right.
fn blocks(list: &mut List, rng: &mut Rng) {
    let good = plain(rng, &[11, 23], 1);
    for order in [[0, 2, 1, 3], [0, 1, 3, 2], [1, 0, 2, 3], [0, 1, 1, 3], [0, 2, 2, 3], [0, 1, 2, 2], [3, 1, 2, 0]] {
        let file: Vec<u8> = order.iter().flat_map(|&block| good[512 * block..][..512].to_vec()).collect();
        list.read_file(&old(rng, 4), &file);
    }
    let wrong = |block: u32| [block + 1, block << 8, block << 24, block ^ 1 << 16, !block];
    for (block, number) in (0..4).flat_map(|block| wrong(block).map(|number| (block, number))) {
        let (mut file, at) = (good.clone(), 512 * block as usize);
        file[at..at + 4].copy_from_slice(&number.to_be_bytes());
        put_right(&mut file, at / 512);
        list.read_file(&old(rng, 2), &file);
    }
}

/// What is wrong in a file of 43 times 3 entries, three blocks: a byte of block 0 (its number, n, m, a size in use, one that is not, the
/// filling) or of a later block (its number, the last one's filling), all with right checks; then a byte of each check.
const CONTENTS: [(usize, u8); 9] = [(3, 1), (4, 16), (5, 0), (7, 0), (20, 1), (22, 1), (515, 9), (1_027, 9), (1_531, 1)];
const CHECKS: [usize; 3] = [511, 1_023, 1_535];

/// Every fault alone, with a buffer that is long enough and one that is not; then every pair of them, with one that is not. The first in
/// the order of block 0, the layout, the whole length, the blocks in turn and the entry buffer is told.
fn order(list: &mut List, rng: &mut Rng) {
    for (first, second) in (0..15).flat_map(|first| (first..15).map(move |second| (first, second))) {
        let (mut file, has) = (plain(rng, &[43, 3], 1), |fault: usize| first == fault || second == fault);
        // A total above the largest.
        if has(12) {
            file[4] = 15;
            file[6..21].fill(255);
        }
        (0..9).filter(|&fault| has(fault)).for_each(|fault| file[CONTENTS[fault].0] = CONTENTS[fault].1);
        (0..3).for_each(|block| put_right(&mut file, block));
        (9..12).filter(|&fault| has(fault)).for_each(|fault| file[CHECKS[fault - 9]] ^= 0x10);
        file.truncate(if has(13) { 511 } else if has(14) { 1_535 } else { 1_536 });
        list.read_file(&old(rng, 3), &file);
        if first == second {
            list.read_file(&old(rng, 129), &file);
        }
    }
}
