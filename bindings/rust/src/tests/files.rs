//! Table files.

use super::{std::vec, std::vec::Vec, UNTOUCHED};
use crate::{file_layout, file_length, lookup, read_table, write_table, Grid, Refusal};

const BLOCK: usize = 512;

/// Signalling and quiet NaNs of both signs with payloads, zeros of both signs, subnormals, infinities, plain numbers.
const BITS: [u32; 12] = [
    0x7F80_0001,
    0x7FBF_FFFF,
    0xFFA5_1234,
    0x7FC0_0000,
    0xFFFF_FFFF,
    0x7FC5_4321,
    0x8000_0000,
    0x0000_0000,
    0x0000_0001,
    0xFF80_0000,
    0x3F80_0000,
    0xBEAA_AAAB,
];

fn bits_of(entries: &[f32]) -> Vec<u32> {
    entries.iter().map(|e| e.to_bits()).collect()
}

/// A table of those entries, each time with a further one.
fn table(grid: &Grid) -> Vec<f32> {
    let entry = |e: usize| f32::from_bits(BITS[(e + e / 12) % 12]);
    (0..grid.total().unwrap()).map(entry).collect()
}

fn written(grid: &Grid) -> Vec<u8> {
    let mut file = vec![0xA5; file_length(grid).unwrap()];
    write_table(grid, &table(grid), &mut file).unwrap();
    file
}

fn word(bytes: &[u8], at: usize) -> u32 {
    u32::from_be_bytes(bytes[at..at + 4].try_into().unwrap())
}

/// The check that belongs to a block: the sum of its words.
fn seal(file: &mut [u8], block: usize) {
    let at = BLOCK * block;
    let sum = (0..127).fold(0u32, |sum, j| sum.wrapping_add(word(file, at + 4 * j)));
    file[at + 508..at + 512].copy_from_slice(&sum.to_be_bytes());
}

/// A file with another byte at a place, in a block with the check that belongs to it.
fn with(file: &[u8], place: usize, byte: u8) -> Vec<u8> {
    let mut other = file.to_vec();
    other[place] = byte;
    seal(&mut other, place / BLOCK);
    other
}

/// A file is refused by this number, and nothing is written.
fn refused(file: &[u8], room: usize, refusal: Refusal) {
    let mut entries = vec![UNTOUCHED; room];
    assert_eq!(read_table(file, &mut entries), Err(refusal));
    assert!(entries.iter().all(|&e| e == UNTOUCHED));
}

#[test]
fn a_small_file_byte_by_byte() {
    let mut right = vec![0; 2 * BLOCK];
    right[4..7].copy_from_slice(&[1, 1, 2]);
    right[508..512].copy_from_slice(&[1, 1, 2, 0]);
    right[515] = 1;
    right[520..522].copy_from_slice(&[0x3F, 0x80]);
    right[1020..1024].copy_from_slice(&[0x3F, 0x80, 0, 1]);
    let (grid, mut file) = (Grid::new(2, 1, 1), vec![0xA5; 1030]);
    write_table(&grid, &[0.0, 1.0, 7.0], &mut file).unwrap();
    assert_eq!(file[..1024], right);
    assert_eq!(file[1024..], [0xA5; 6]);
}

/// Totals on both sides of multiples of 126, and at them: there is no filling then, and no further block.
#[test]
fn every_table_comes_back_bit_for_bit() {
    let cases = [
        (vec![1], 1, 1),
        (vec![125], 1, 1),
        (vec![126], 1, 1),
        (vec![127], 1, 2),
        (vec![9, 1, 7], 4, 2),
        (vec![23, 11], 1, 3),
        (vec![3, 3, 2, 3], 3, 2),
        (vec![126, 3], 2, 6),
        (vec![1; 15], 15, 1),
    ];
    for (sizes, m, blocks) in cases {
        let grid = Grid::of_sizes(&sizes, m);
        let (table, total) = (table(&grid), grid.total().unwrap());
        assert_eq!(file_length(&grid), Ok(BLOCK * (1 + blocks)), "{sizes:?}");
        let file = written(&grid);
        assert_eq!(file_layout(&file[..BLOCK]), Ok(grid));
        let mut entries = vec![UNTOUCHED; total + 2];
        assert_eq!(read_table(&file, &mut entries), Ok(grid));
        assert_eq!(bits_of(&entries[..total]), bits_of(&table), "{sizes:?}");
        assert_eq!(entries[total..], [UNTOUCHED; 2]);
        assert_eq!(read_table(&file, &mut entries[..total]), Ok(grid));
    }
}

/// No table here is as large, but its file's length is known: 2^32 bytes are too few.
#[test]
fn lengths_of_large_files() {
    let blocks = |total: usize| total.div_ceil(126);
    for (grid, total) in [
        (Grid::new(255, 4, 1), 4_228_250_625),
        (Grid::new(4, 15, 3), 3_221_225_472),
        (Grid::of_sizes(&[127, 113, 215, 232, 6], 1), 4_294_967_280),
    ] {
        assert_eq!(file_length(&grid), Ok(512 * (1 + blocks(total))));
    }
}

/// Sizes past the inks do not count, and the file does not hold them.
#[test]
fn unused_sizes_are_written_as_zeros() {
    let (plain, mut other) = (Grid::of_sizes(&[2, 3], 1), Grid::new(9, 16, 1));
    other.sizes[..2].copy_from_slice(&[2, 3]);
    other.n = 2;
    let mut file = vec![0xA5; 1024];
    write_table(&other, &table(&plain), &mut file).unwrap();
    assert_eq!(file, written(&plain));
    assert_eq!(file_layout(&file), Ok(plain));
}

#[test]
fn refused_writers_write_nothing() {
    let grid = Grid::new(2, 3, 2);
    let cases = [
        (Grid::new(2, 0, 0), 16, 1024, 1),
        (Grid::new(2, 16, 2), 0, 0, 1),
        (Grid::new(2, 3, 16), 0, 0, 2),
        (Grid::new(0, 3, 2), 0, 0, 3),
        (Grid::new(4, 15, 4), 0, 0, 5),
        (grid, 15, 0, 6),
        (grid, 15, 1024, 6),
        (grid, 16, 0, 8),
        (grid, 16, 1023, 8),
    ];
    for (grid, entries, room, number) in cases {
        let mut file = [0xA5; 1024];
        let refusal = write_table(&grid, &[0.5; 16][..entries], &mut file[..room]).unwrap_err();
        assert_eq!(refusal.number(), number, "{grid:?}, {entries}, {room}");
        assert_eq!(file, [0xA5; 1024]);
        if number < 6 {
            assert_eq!(file_length(&grid), Err(refusal));
        }
    }
}

/// 140 entries in three blocks: each refusal of a file at block 0 and at a later one, and the buffer's last.
#[test]
fn refused_files_write_nothing() {
    let file = written(&Grid::of_sizes(&[14, 10], 1));
    assert_eq!(file.len(), 3 * BLOCK);
    for length in [0, 511] {
        refused(&file[..length], 140, Refusal::FileLength);
        assert_eq!(file_layout(&file[..length]), Err(Refusal::FileLength));
    }
    for length in [512, 1024, 1535] {
        refused(&file[..length], 0, Refusal::FileLength);
        assert_eq!(file_layout(&file[..length]).unwrap().n, 2);
    }
    refused(&[&file[..], &[0]].concat(), 140, Refusal::FileLength);
    for block in 0..3 {
        let mut torn = file.clone();
        torn[BLOCK * block + 300] ^= 0x10;
        refused(&torn, 140, Refusal::BlockCheck);
        for place in 0..4 {
            let other = with(&file, BLOCK * block + place, 7);
            refused(&other, 140, Refusal::BlockNumber);
        }
    }
    let twice = with(&with(&file, 1024 + 507, 1), 1024, 1);
    refused(&twice, 140, Refusal::BlockNumber);
    for place in [8, 21, 22, 507, 1024 + 4 + 4 * 14, 1024 + 507] {
        refused(&with(&file, place, 0x80), 140, Refusal::BlockFilling);
    }
    refused(&file, 139, Refusal::ShortAnswer);
    refused(&with(&file, 1024 + 507, 1), 139, Refusal::BlockFilling);
}

#[test]
fn refused_layouts_of_files() {
    let file = written(&Grid::of_sizes(&[2, 3], 1));
    let cases = [
        (with(&file, 4, 0), Refusal::BlockFilling),
        (
            with(&with(&with(&file, 4, 0), 6, 0), 7, 0),
            Refusal::InputInks,
        ),
        (with(&file, 4, 16), Refusal::InputInks),
        (with(&file, 4, 255), Refusal::InputInks),
        (with(&with(&file, 4, 255), 22, 1), Refusal::BlockFilling),
        (with(&file, 5, 0), Refusal::OutputInks),
        (with(&file, 5, 16), Refusal::OutputInks),
        (with(&file, 6, 0), Refusal::ZeroSize),
        (with(&file, 4, 3), Refusal::ZeroSize),
        (vec![0; 1024], Refusal::InputInks),
        (vec![0xFF; 1024], Refusal::BlockCheck),
    ];
    for (bytes, refusal) in cases {
        assert_eq!(file_layout(&bytes[..BLOCK]), Err(refusal));
        refused(&bytes, 6, refusal);
        refused(&bytes[..600], 6, refusal);
    }
    let mut large = with(&with(&file, 4, 15), 5, 4);
    large[6..21].fill(4);
    seal(&mut large, 0);
    refused(&large, 6, Refusal::LargeTotal);
}

/// What the sum does not see: exchanged entries of a block, and changes that cancel each other. Exchanged blocks have wrong numbers.
#[test]
fn what_the_check_sees_and_does_not() {
    let grid = Grid::of_sizes(&[126, 2], 1);
    let (file, table) = (written(&grid), table(&grid));
    let mut exchanged = file.clone();
    exchanged[516..520].copy_from_slice(&file[520..524]);
    exchanged[520..524].copy_from_slice(&file[516..520]);
    let mut entries = vec![UNTOUCHED; 252];
    assert_eq!(read_table(&exchanged, &mut entries), Ok(grid));
    entries.swap(0, 1);
    assert_eq!(bits_of(&entries), bits_of(&table));
    let blocks = [&file[..512], &file[1024..], &file[512..1024]].concat();
    refused(&blocks, 252, Refusal::BlockNumber);
}

#[test]
fn colours_out_of_a_file() {
    let grid = Grid::new(2, 2, 1);
    let mut file = [0; 1024];
    write_table(&grid, &[0.0, 1.0, 2.0, 3.0], &mut file).unwrap();
    let told = file_layout(&file[..BLOCK]).unwrap();
    let mut entries = vec![UNTOUCHED; told.total().unwrap()];
    let (read, mut answer) = (read_table(&file, &mut entries).unwrap(), [UNTOUCHED]);
    lookup(&read, &entries, &[0.5, 0.25], &mut answer).unwrap();
    assert_eq!(answer, [1.25]);
}
