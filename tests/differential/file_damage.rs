//! Damaged table files: every byte, every length, blocks that changed places, wrong numbers, every n and m in block 0, random damage.

use crate::case::Run;
use crate::file_tables::{entries, file, small, with_total};
use crate::files::{byte, put_right, Read};
use crate::values::Rng;
use oracle::{expected, files};

/// Sizes and m of small files: without filling, with one entry of it, with one less than all; two blocks to four; one ink to fifteen.
const SMALL: [(&[u8], usize); 8] = [
    (&[1], 1), (&[125], 1), (&[2, 9, 7], 1), (&[127], 1), (&[7, 3, 3], 4), (&[11, 23], 1), (&[5, 5, 5], 3),
    (&[1, 1, 1, 2, 1, 1, 1, 1, 1, 1, 1, 1, 1, 1, 1], 15),
];

pub fn all(run: &mut Run, rng: &mut Rng, long: bool) {
    every_byte(run, rng);
    every_length(run, rng);
    blocks(run, rng);
    block_numbers(run, rng);
    heads(run, rng);
    run.kind("table files, damaged copies of good ones");
    (0..if long { 3_200_000 } else { 400_000 }).for_each(|_| run.hold(damaged(rng)));
}

/// A buffer for these entries, or one that is too short by one.
fn room(rng: &mut Rng, total: usize) -> usize {
    total + rng.pick(&[0, 1, 1, 1, 3]) - 1
}

/// Each byte set to other values, and then its block's check put right or not.
fn every_byte(run: &mut Run, rng: &mut Rng) {
    run.kind("table files with each byte damaged, the check put right or not");
    for (sizes, m) in SMALL {
        let (good, total) = (file(rng, sizes, m), expected::total(sizes, m) as usize);
        for (place, right) in (0..good.len()).flat_map(|place| [(place, false), (place, true)]) {
            let old = good[place];
            for value in [old.wrapping_add(1), old ^ 0x80, 0, 255] {
                let mut file = good.clone();
                file[place] = value;
                if right {
                    put_right(&mut file, place / files::BLOCK);
                }
                run.hold(Read { file: file.into(), room: room(rng, total) });
            }
        }
    }
}

/// Every length from nothing to two blocks more; what follows is zeros, anything, or further blocks that are right by themselves. The
/// file begins at an address one, two or three after a multiple of four.
fn every_length(run: &mut Run, rng: &mut Rng) {
    run.kind("table files cut off at each length, and lengthened");
    for (sizes, m) in SMALL {
        let (good, total) = (file(rng, sizes, m), expected::total(sizes, m) as usize);
        let number = (good.len() / files::BLOCK) as u32;
        let further = [files::block(number, &[]), files::block(number + 1, &[1])].concat();
        let after = [vec![0; 1_024], (0..1_024).map(byte).collect(), further];
        for (skew, more) in (1..).zip(after) {
            let whole = [&vec![7; skew], &good[..], &more].concat();
            for length in 0..=whole.len() - skew {
                run.hold(Read { file: (&whole[skew..skew + length]).into(), room: room(rng, total) });
            }
        }
    }
}

/// A file of five blocks or six, its blocks in another order, one twice or one left out; their numbers as they were, or put right.
fn blocks(run: &mut Run, rng: &mut Rng) {
    run.kind("table files with blocks exchanged, doubled, dropped and copied, their numbers as they were or put right");
    for total in [501, 504, 505, 4 * 126 - 125] {
        for _ in 0..12 {
            let n = rng.within(2, 15);
            let Some((sizes, m)) = with_total(rng, n, total) else { continue };
            let good = file(rng, &sizes, m);
            let list: Vec<&[u8]> = good.chunks(files::BLOCK).collect();
            let count = list.len();
            for (i, j) in (0..count).flat_map(|i| (0..count).map(move |j| (i, j))) {
                let [mut exchanged, mut doubled, mut dropped, mut copied] = [&list, &list, &list, &list].map(Vec::clone);
                exchanged.swap(i, j);
                doubled.insert(j, list[i]);
                dropped.remove(i);
                copied[j] = list[i];
                for blocks in [exchanged, doubled, dropped, copied] {
                    numbered(run, rng, blocks.concat(), total);
                }
            }
        }
    }
}

/// The file as it is, and with every block's number and check put right.
fn numbered(run: &mut Run, rng: &mut Rng, file: Vec<u8>, total: usize) {
    let mut right = file.clone();
    for (number, block) in right.chunks_mut(files::BLOCK).enumerate() {
        block[..4].copy_from_slice(&(number as u32).to_be_bytes());
        put_right(block, 0);
    }
    run.hold(Read { file: file.into(), room: room(rng, total) });
    run.hold(Read { file: right.into(), room: room(rng, total) });
}

/// Each block with other numbers and a right check.
fn block_numbers(run: &mut Run, rng: &mut Rng) {
    run.kind("table files with a block's number wrong and its check right");
    for (sizes, m) in SMALL {
        let (good, total) = (file(rng, sizes, m), expected::total(sizes, m) as usize);
        for block in 0..good.len() / files::BLOCK {
            let own = block as u32;
            let turned = [own << 8, own << 16, own << 24, own | 1 << 31, own | 1 << 16, own | 1 << 8, u32::MAX, own.wrapping_sub(1)];
            let random: [u32; 50] = std::array::from_fn(|_| rng.next() as u32);
            for number in (0..6).chain(turned).chain(random) {
                let mut file = good.clone();
                file[files::BLOCK * block..][..4].copy_from_slice(&number.to_be_bytes());
                put_right(&mut file, block);
                run.hold(Read { file: file.into(), room: room(rng, total) });
            }
        }
    }
}

/// Every n and m of a byte, with sizes of every sort: those in use 1 and the others 0, all 1, all 0, one that is not 0, anything. Then
/// every place of the sizes and of the filling after them.
fn heads(run: &mut Run, rng: &mut Rng) {
    run.kind("table files with every n and m in block 0, sizes in use and not in use 0 and not 0, the check right");
    for (n, m) in (0..=255).flat_map(|n| (0..=255).map(move |m| (n, m))) {
        for sort in 0..5 {
            let one = rng.below(16);
            let sizes: [u8; 16] = std::array::from_fn(|ink| match sort {
                0 => u8::from(ink < n as usize),
                1 => 1,
                2 => 0,
                3 => u8::from(ink < n as usize && rng.below(8) > 0 || ink == one),
                _ => rng.pick(&[0, 1, 1, 2, 255]),
            });
            head(run, rng, n, m, &sizes);
        }
    }
    for (n, place) in (0..=17).flat_map(|n| (6..files::CHECKED).map(move |place| (n, place))) {
        let mut contents = [0; 504];
        contents[..2].copy_from_slice(&[n, 1]);
        contents[2..2 + n.min(16) as usize].fill(1);
        contents[place - 4] ^= rng.pick(&[1, 0x80, 255]);
        run.hold(Read { file: files::block(0, &contents).into(), room: 1 });
    }
}

/// Block 0 with these, and a block of m entries where it has room for them; in one of eight files block 0 alone.
fn head(run: &mut Run, rng: &mut Rng, n: u8, m: u8, sizes: &[u8; 16]) {
    let mut file = files::block(0, &[&[n, m], &sizes[..]].concat());
    if !rng.one_in(8) {
        let list: Vec<u8> = entries(rng, m.min(15) as usize).iter().flat_map(|entry| entry.to_bits().to_be_bytes()).collect();
        file.extend(files::block(1, &list));
    }
    run.hold(Read { file: file.into(), room: room(rng, m as usize + 1) });
}

/// A random file with one to three damages.
fn damaged(rng: &mut Rng) -> Read<'static> {
    let (used, m) = small(rng);
    let mut call = Read { file: file(rng, &used, m).into(), room: room(rng, expected::total(&used, m) as usize) };
    for _ in 0..rng.within(1, 3) {
        let file = call.file.to_mut();
        if file.len() < files::BLOCK || rng.one_in(5) {
            lengthened(rng, file);
        } else {
            damage(rng, file);
        }
    }
    call
}

/// Another length, with anything where it is more.
fn lengthened(rng: &mut Rng, file: &mut Vec<u8>) {
    let length = file.len();
    let new = match rng.below(5) {
        0 => rng.below(length + 1),
        1 => length.saturating_sub(rng.within(1, 9)),
        2 => length.saturating_sub(512),
        3 => length + rng.within(1, 9),
        _ => length + 512,
    };
    file.resize_with(new, || rng.next() as u8);
}

/// A damage that leaves the length; mostly the block's check is put right afterwards.
fn damage(rng: &mut Rng, file: &mut [u8]) {
    let count = file.len() / files::BLOCK;
    let (block, other) = (rng.below(count), rng.below(count));
    let (at, to) = (files::BLOCK * block, files::BLOCK * other);
    match rng.below(9) {
        0 => file[at + rng.below(512)] = rng.next() as u8,
        1 => file[at + rng.below(512)] ^= 1 << rng.below(8),
        2 => file[at + 3] = rng.below(count + 1) as u8,
        3 => file[at + rng.below(4)] ^= 1 << rng.below(8),
        // The last words before the check, where filling is.
        4 => file[at + 508 - rng.within(1, 40)] ^= rng.pick(&[1, 0x80, 0xFF]),
        5 => file[rng.within(4, 5)] = rng.pick(&[0, 1, 2, 15, 16, 17, 255]),
        6 => file[rng.within(6, 22)] = rng.pick(&[0, 1, 2, 255]),
        7 => (0..512).for_each(|place| file.swap(at + place, to + place)),
        _ => file.copy_within(to..to + 512, at),
    }
    if !rng.one_in(4) {
        put_right(file, block);
        put_right(file, 0);
    }
}
