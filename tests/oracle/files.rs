//! Table files in document 02's own words (E9). The crate has no such call, so nothing of it is used here.

use crate::expected::{self, Record};

/// The bytes of a block; those before its check; the entries of a block after block 0.
pub const BLOCK: usize = 512;
pub const CHECKED: usize = 508;
pub const ENTRIES: usize = 126;

/// What writing leaves: the number, and the byte buffer.
#[derive(Clone, Debug)]
pub struct Written {
    pub number: u32,
    pub file: Vec<u8>,
}

/// What reading leaves: the number, the block that is refused (0 too where none is), the layout record (zeros if refused), and the entry
/// buffer.
#[derive(Clone, Debug)]
pub struct Read {
    pub number: u32,
    pub block: usize,
    pub record: Record,
    pub entries: Vec<f32>,
}

/// Four bytes, the first counting most.
fn word(bytes: &[u8]) -> u32 {
    u32::from_be_bytes([bytes[0], bytes[1], bytes[2], bytes[3]])
}

/// The bytes of a file: block 0, and the blocks that the total needs.
pub fn length(total: u128) -> u128 {
    512 * (1 + total.div_ceil(126))
}

/// A block's check: the wrapping sum of the 127 words before it.
pub fn check(block: &[u8]) -> u32 {
    block[..CHECKED].chunks_exact(4).fold(0, |sum, bytes| u32::wrapping_add(sum, word(bytes)))
}

/// A block: its number, its contents, zeros up to its check, and that.
pub fn block(number: u32, contents: &[u8]) -> Vec<u8> {
    let mut bytes = [&number.to_be_bytes(), contents].concat();
    bytes.resize(CHECKED, 0);
    let check = check(&bytes);
    bytes.extend(check.to_be_bytes());
    bytes
}

/// The file of accepted sizes, all in use, and of exactly their entries.
pub fn file(sizes: &[u8], m: usize, entries: &[f32]) -> Vec<u8> {
    let mut file = block(0, &[&[sizes.len() as u8, m as u8], sizes].concat());
    for (number, part) in (1..).zip(entries.chunks(ENTRIES)) {
        let contents: Vec<u8> = part.iter().flat_map(|entry| entry.to_bits().to_be_bytes()).collect();
        file.extend(block(number, &contents));
    }
    file
}

/// The table and the byte buffer: 6, 8.
fn lent(total: u128, table: usize, room: usize) -> u32 {
    if (table as u128) < total {
        return 6; // table shorter than the total
    }
    if (room as u128) < length(total) {
        return 8; // a byte buffer shorter than the file
    }
    0
}

/// A writer that lays out first: the layout's, then 6, 8.
pub fn write_number(sizes: &[u8; 16], n: usize, m: usize, table: usize, room: usize) -> u32 {
    match expected::layout(sizes, n, m) {
        0 => lent(expected::total(&sizes[..n], m), table, room),
        refused => refused,
    }
}

/// A writer with a record: 9, 6, 8.
pub fn record_number(record: &Record, table: usize, room: usize) -> u32 {
    expected::accepted(record).map_or(9, |(sizes, m)| lent(expected::total(&sizes, m), table, room))
}

/// Writes into a buffer that held `old`: the file stands in its first bytes, no others are set. Only the first total entries count.
pub fn write(sizes: &[u8; 16], n: usize, m: usize, table: &[f32], old: &[u8]) -> Written {
    let mut written = Written { number: write_number(sizes, n, m, table.len(), old.len()), file: old.to_vec() };
    if written.number == 0 {
        let file = file(&sizes[..n], m, &table[..expected::total(&sizes[..n], m) as usize]);
        written.file[..file.len()].copy_from_slice(&file);
    }
    written
}

/// A block of a number whose filling begins at byte `used`: 18, 19, 20.
fn block_number(block: &[u8], number: u32, used: usize) -> u32 {
    if word(&block[CHECKED..]) != check(block) {
        return 18; // its check
    }
    if word(block) != number {
        return 19; // its number
    }
    if block[used..CHECKED].iter().any(|&byte| byte != 0) {
        return 20; // filling or an unused size not zero
    }
    0
}

/// The sizes, n and m that block 0 holds.
pub fn head(block: &[u8]) -> ([u8; 16], usize, usize) {
    (std::array::from_fn(|ink| block[6 + ink]), block[4].into(), block[5].into())
}

/// Block 0 by its length, check, number and filling, then the layout: 17, 18, 19, 20, 1, 2, 3, 5. Of the sizes those after the first n are
/// unused.
pub fn layout_number(file: &[u8]) -> u32 {
    if file.len() < BLOCK {
        return 17; // not even block 0
    }
    let (sizes, n, m) = head(file);
    match block_number(&file[..BLOCK], 0, 6 + n.min(16)) {
        0 => expected::layout(&sizes, n, m),
        refused => refused,
    }
}

/// The total of a file whose layout is accepted.
pub fn total(file: &[u8]) -> u128 {
    let (sizes, n, m) = head(file);
    expected::total(&sizes[..n], m)
}

/// Those of block 0 and the layout, then the whole length, then the other blocks in turn, last 8; and the block, 1 for the whole length.
pub fn found(file: &[u8], room: usize) -> (u32, usize) {
    let refused = layout_number(file);
    if refused != 0 {
        return (refused, 0);
    }
    let total = total(file);
    if file.len() as u128 != length(total) {
        return (17, 1); // not exactly block 0 and the blocks that the total needs
    }
    let mut left = total as usize;
    for (number, block) in file.chunks_exact(BLOCK).enumerate().skip(1) {
        let here = left.min(ENTRIES);
        let refused = block_number(block, number as u32, 4 + 4 * here);
        if refused != 0 {
            return (refused, number);
        }
        left -= here;
    }
    // 8: a buffer shorter than the total.
    if room < total as usize { (8, 0) } else { (0, 0) }
}

/// The entries of an accepted file.
pub fn entries(file: &[u8]) -> Vec<f32> {
    let words = file[BLOCK..].chunks_exact(BLOCK).flat_map(|block| block[4..CHECKED].chunks_exact(4));
    words.take(total(file) as usize).map(|bytes| f32::from_bits(word(bytes))).collect()
}

/// The record of a file whose layout is accepted; zeros of any other.
pub fn record(file: &[u8]) -> Record {
    if layout_number(file) != 0 {
        return [0; 66];
    }
    let (sizes, n, m) = head(file);
    expected::record(&sizes, n, m)
}

/// Reads into a buffer that held `old`: the first total entries are set, no others.
pub fn read(file: &[u8], old: &[f32]) -> Read {
    let (number, block) = found(file, old.len());
    let mut read = Read { number, block, record: [0; 66], entries: old.to_vec() };
    if number == 0 {
        let entries = entries(file);
        read.record = record(file);
        read.entries[..entries.len()].copy_from_slice(&entries);
    }
    read
}
