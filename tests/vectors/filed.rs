//! Cases 14 and 15: a table file written, and one read (document 02, E9). An entry is its 32 bits, and a NaN keeps its payload.

use crate::list::{hash, Asked, List};
use oracle::{expected, files};

/// The longest file, and the longest table or entry buffer beside it.
pub const FILE: usize = 4_096;
pub const ENTRIES: usize = 1_024;

/// A table by the bits of its entries, or by a length and a seed.
#[derive(Clone)]
pub enum Bits {
    Words(Vec<u32>),
    Seeded(usize, u32),
}

impl Bits {
    pub fn entries(&self) -> Vec<f32> {
        match self {
            Bits::Words(words) => words.iter().map(|&word| f32::from_bits(word)).collect(),
            Bits::Seeded(len, seed) => (0..*len as u32).map(|i| f32::from_bits(hash(seed.wrapping_add(i)))).collect(),
        }
    }

    fn text(&self) -> Vec<u32> {
        match self {
            Bits::Words(words) => [&[words.len() as u32, 0], &words[..]].concat(),
            Bits::Seeded(len, seed) => vec![*len as u32, 2, *seed],
        }
    }
}

/// A file's bytes, four to a word, the first counting most, zeros after the last byte; after a word 0 how many more zeros follow it.
fn listed(file: &[u8]) -> Vec<u32> {
    let words = file.chunks(4).map(|part| part.iter().chain(&[0; 3]).take(4).fold(0, |word, &byte| word << 8 | byte as u32));
    shortened(words.collect())
}

/// The same of what is printed, where the bytes left at the end make a word of their own.
fn printed(file: &[u8]) -> Vec<u32> {
    let words = file.chunks_exact(4);
    let left = words.remainder().iter().fold(0, |word, &byte| word << 8 | byte as u32);
    let mut list = shortened(words.map(|part| u32::from_be_bytes([part[0], part[1], part[2], part[3]])).collect());
    list.extend((file.len() % 4 > 0).then_some(left));
    list
}

/// Each run of zeros as one, and how many more follow it.
fn shortened(words: Vec<u32>) -> Vec<u32> {
    let runs = words.chunk_by(|a, b| *a == 0 && *b == 0);
    runs.flat_map(|run| if run[0] == 0 { vec![0, run.len() as u32 - 1] } else { run.to_vec() }).collect()
}

impl List {
    /// 14: a table file, written into a buffer whose bytes are all `old`.
    pub fn write_file(&mut self, asked: Asked, table: &Bits, room: usize, old: u8) {
        self.asks(14, &[&asked.words(), &table.text(), &[room as u32, old as u32]]);
        let (record, entries, mut file) = (asked.record(), table.entries(), vec![old; room]);
        assert!(room <= FILE && entries.len() <= ENTRIES);
        self.entries += entries.len();
        self.count_unequal(14, &record);
        let number = files::record_number(&record, entries.len(), room);
        if let (0, Some((sizes, m))) = (number, expected::accepted(&record)) {
            let whole = files::file(&sizes, m, &entries[..expected::total(&sizes, m) as usize]);
            file[..whole.len()].copy_from_slice(&whole);
        }
        self.filed[number as usize][0] += 1;
        self.answers(Some(number), printed(&file));
    }

    /// 15: a table file, read into a buffer with old contents.
    pub fn read_file(&mut self, old: &Bits, file: &[u8]) {
        self.asks(15, &[&[0], &old.text(), &[file.len() as u32], &listed(file)]);
        let read = files::read(file, &old.entries());
        assert!(file.len() <= FILE && read.entries.len() <= ENTRIES);
        self.entries += read.entries.len();
        self.count_unequal(15, &read.record);
        self.filed[read.number as usize][1] += 1;
        self.answers(Some(read.number), read.record.into_iter().chain(read.entries.iter().map(|entry| entry.to_bits())));
    }

    /// 15 too: the layout of a file alone, beside a buffer of two entries.
    pub fn file_layout(&mut self, file: &[u8]) {
        let old = Bits::Seeded(2, 9);
        self.asks(15, &[&[1], &old.text(), &[file.len() as u32], &listed(file)]);
        assert!(file.len() <= FILE);
        let number = files::layout_number(file);
        self.filed[number as usize][2] += 1;
        self.answers(Some(number), files::record(file).into_iter().chain(old.entries().iter().map(|entry| entry.to_bits())));
    }
}
