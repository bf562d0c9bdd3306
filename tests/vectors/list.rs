//! The list of cases as text: what `replay` reads and what it should write. README.md has the format.

use crate::grids::padded;
use oracle::{expected, one_size, Cell};
use std::fmt::Write;

/// The longest list that is stored, in bytes.
pub const TEXT: usize = 1 << 20;

/// The largest table that `replay` has room for.
pub const ROOM: usize = 40_000;

/// The longest element that `replay` has room for.
pub const ELEMENT: usize = 4_096;

/// The longest buffer that an element is read into.
pub const BUFFER: usize = 4_000;

/// The most bytes of values, and the longest buffer that they are read into.
pub const UNITS: usize = 1_024;

/// The longest buffer that a slab is cut into.
pub const SLAB: usize = 1_024;

/// D of a record that is left as it is.
pub const NO_PLACE: u32 = u32::MAX;

/// A table as its words, or as a length and a seed.
#[derive(Clone)]
pub enum Table {
    /// Mode 0: every entry's bits.
    Words(Vec<u32>),
    /// Mode 1: shares of 0 to below 1.
    Shares(usize, u32),
    /// Mode 2: any bits.
    Bits(usize, u32),
}

/// The 32-bit hash of the seed forms.
pub fn hash(mut x: u32) -> u32 {
    x ^= x >> 16;
    x = x.wrapping_mul(0x7feb_352d);
    x ^= x >> 15;
    x = x.wrapping_mul(0x846c_a68b);
    x ^ x >> 16
}

/// A NaN loses its payload: a Rattle program can neither make nor read one.
pub fn plain(bits: u32) -> u32 {
    if f32::from_bits(bits).is_nan() { 0x7FC0_0000 } else { bits }
}

impl Table {
    pub fn entries(&self) -> Vec<f32> {
        match self {
            Table::Words(words) => words.iter().map(|&w| f32::from_bits(plain(w))).collect(),
            Table::Shares(len, seed) => {
                (0..*len as u32).map(|i| (hash(seed.wrapping_add(i)) >> 8) as f32 / 16_777_216.0).collect()
            }
            Table::Bits(len, seed) => (0..*len as u32).map(|i| f32::from_bits(plain(hash(seed.wrapping_add(i))))).collect(),
        }
    }

    pub fn text(&self) -> Vec<u32> {
        match self {
            Table::Words(words) => [words.len() as u32, 0].into_iter().chain(words.iter().map(|&w| plain(w))).collect(),
            Table::Shares(len, seed) => vec![*len as u32, 1, *seed],
            Table::Bits(len, seed) => vec![*len as u32, 2, *seed],
        }
    }

    /// The same table with another length.
    pub fn of_length(&self, len: usize) -> Table {
        match self {
            Table::Words(words) => Table::Words(words.iter().copied().chain(std::iter::repeat(7)).take(len).collect()),
            Table::Shares(_, seed) => Table::Shares(len, *seed),
            Table::Bits(_, seed) => Table::Bits(len, *seed),
        }
    }
}

/// A record as one asks for it: laid out from sixteen sizes, n and m, and then place D set to V.
#[derive(Clone, Copy)]
pub struct Asked {
    pub sizes: [u8; 16],
    pub n: u32,
    pub m: u32,
    pub place: u32,
    pub value: u32,
}

impl Asked {
    /// These sizes in use, and after them the first one again.
    pub fn whole(used: &[u8], m: usize) -> Asked {
        Asked::of_counts(padded(used), used.len(), m)
    }

    pub fn of_counts(sizes: [u8; 16], n: usize, m: usize) -> Asked {
        Asked { sizes, n: n as u32, m: m as u32, place: NO_PLACE, value: 0 }
    }

    pub fn record(&self) -> expected::Record {
        let mut record = expected::record(&self.sizes, self.n as usize, self.m as usize);
        if let Some(word) = record.get_mut(self.place as usize) {
            *word = if (48..64).contains(&self.place) { self.value & 0xFF } else { self.value() };
        }
        record
    }

    /// V; a scale's is the bits of a float.
    fn value(&self) -> u32 {
        if (32..48).contains(&self.place) { plain(self.value) } else { self.value }
    }

    pub fn words(&self) -> Vec<u32> {
        self.sizes.map(u32::from).into_iter().chain([self.n, self.m, self.place, self.value()]).collect()
    }
}

/// The two texts, and how many cases of each kind they hold.
#[derive(Default)]
pub struct List {
    pub stdin: String,
    pub stdout: String,
    pub counts: [usize; 16],
    pub entries: usize,
    /// How many lookups demand 2 excepts (E4), and in how many of them the crate's answers are others.
    pub excepted: [usize; 2],
    /// How many lookups, with skipping or without, are refused for a NaN input (E8).
    pub nans: usize,
    /// How many accepted lookups with skipping (E6) there are, and in how many of them the plain lookup answers otherwise.
    pub skipping: [usize; 2],
    /// How many cases of each kind have a record with unequal sizes.
    pub unequal: [usize; 16],
    /// How many table files of each number (E9): written, read, and asked for their layout alone.
    pub filed: [[usize; 3]; 21],
}

impl List {
    pub fn asks(&mut self, kind: u32, parts: &[&[u32]]) {
        self.counts[kind as usize] += 1;
        let words: Vec<String> = std::iter::once(&kind).chain(parts.iter().copied().flatten()).map(|w| format!("{w:x}")).collect();
        self.stdin.push_str(&words.join(" "));
        self.stdin.push('\n');
    }

    /// A line of the number in decimal and the words in hex.
    pub fn answers(&mut self, number: Option<u32>, words: impl IntoIterator<Item = u32>) {
        let number = number.map(|k| k.to_string());
        let words: Vec<String> = number.into_iter().chain(words.into_iter().map(|w| format!("{w:08X}"))).collect();
        writeln!(self.stdout, "{}", words.join(" ")).expect("text");
    }

    /// Counts a case to its kind where the record is one that a layout with unequal sizes gives.
    pub fn count_unequal(&mut self, kind: usize, record: &expected::Record) {
        self.unequal[kind] += usize::from(expected::accepted(record).is_some_and(|(sizes, _)| one_size(&sizes).is_none()));
    }

    /// The answer buffer beforehand: small subnormals, another at each place.
    pub fn buffer(len: usize) -> Vec<u32> {
        (0..len as u32).map(|i| 0xB0 + i).collect()
    }

    /// 2: a layout.
    pub fn layout(&mut self, sizes: &[u8; 16], n: u32, m: u32) {
        self.asks(2, &[&sizes.map(u32::from), &[n, m]]);
        let record = expected::record(sizes, n as usize, m as usize);
        self.count_unequal(2, &record);
        self.answers(Some(expected::layout(sizes, n as usize, m as usize)), record);
    }

    /// 3: a node.
    pub fn node(&mut self, asked: Asked, table: &Table, coordinates: &[u32]) {
        self.asks(3, &[&asked.words(), &table.text(), &[coordinates.len() as u32], coordinates]);
        let (entries, record) = (table.entries(), asked.record());
        self.entries += entries.len();
        self.count_unequal(3, &record);
        let coordinates: Vec<usize> = coordinates.iter().map(|&k| k as usize).collect();
        let number = expected::record_node(&record, entries.len(), &coordinates);
        let part = if number == 0 {
            let (sizes, m) = expected::accepted(&record).expect("an accepted record");
            entries[expected::node_offset(&sizes, m, &coordinates)..][..m].to_vec()
        } else {
            Vec::new()
        };
        self.answers(Some(number), part.iter().map(|e| plain(e.to_bits())));
    }

    /// The oracle's weights; zeros where they are refused.
    fn weights(g: u8) -> Vec<Cell> {
        if g == 0 { vec![Cell::default(); 256] } else { oracle::weights(g) }
    }

    fn cell(c: &Cell) -> [u32; 3] {
        [c.x as u32, c.x_n as u32, c.w.to_bits()]
    }

    /// 4: one weight.
    pub fn weight(&mut self, g: u8, index: u32) {
        self.asks(4, &[&[g as u32, index]]);
        self.answers(Some(expected::weights(g)), List::cell(&List::weights(g)[index as usize]));
    }

    /// 5: the checksum of all 256 weights, FNV-1a over x, x_n and the weight's bytes, low byte first.
    pub fn all_weights(&mut self, g: u8) {
        self.asks(5, &[&[g as u32]]);
        let bytes = List::weights(g).into_iter().flat_map(|c| {
            let w = c.w.to_bits().to_le_bytes();
            [c.x as u8, c.x_n as u8, w[0], w[1], w[2], w[3]]
        });
        let sum = bytes.fold(0x811C_9DC5_u32, |sum, byte| (sum ^ byte as u32).wrapping_mul(0x0100_0193));
        self.stdout.push_str(&format!("{} {sum:08X}\n", expected::weights(g)));
    }

    /// 6, 7, 8: pyramid, prism, trilinear.
    pub fn cube(&mut self, kind: u32, x: [u32; 3], x_n: [u32; 3], w: [f32; 3], g: u8, m: u32, table: &Table, answer: usize) {
        let (weights, mut buffer) = (w.map(|w| plain(w.to_bits())), List::buffer(answer));
        self.asks(kind, &[&x, &x_n, &weights, &[g as u32, m], &table.text(), &[answer as u32], &buffer]);
        let entries = table.entries();
        self.entries += entries.len();
        let (x, x_n) = (x.map(|k| k as usize), x_n.map(|k| k as usize));
        let number = expected::cube(&x, &x_n, g, m as usize, entries.len(), answer);
        if number == 0 {
            let cells = [0, 1, 2].map(|i| Cell { x: x[i], x_n: x_n[i], w: f32::from_bits(weights[i]) });
            let method = [oracle::pyramidal, oracle::prismatic, oracle::trilinear][kind as usize - 6];
            for (o, a) in method(&cells, g, m as usize, &entries).iter().enumerate() {
                buffer[o] = plain(a.to_bits());
            }
        }
        self.answers(Some(number), buffer);
    }

    /// 9: an entry of the 33-point constant, which equals the rule.
    pub fn constant(&mut self, index: u32) {
        self.asks(9, &[&[index]]);
        self.answers(None, List::cell(&oracle::weights(33)[index as usize]));
    }

    /// 10: a CLUT element, into a buffer with old contents.
    pub fn clut(&mut self, n: u32, m: u32, old: &Table, element: &[u8]) {
        let bytes: Vec<u32> = element.iter().map(|&byte| byte as u32).collect();
        self.asks(10, &[&[n, m], &old.text(), &[bytes.len() as u32], &bytes]);
        assert!(bytes.len() <= ELEMENT);
        assert!(old.entries().len() <= BUFFER);
        let read = oracle::clut::read(element, n as usize, m as usize, &old.entries());
        self.entries += read.entries.len();
        self.count_unequal(10, &read.record);
        self.answers(Some(read.number), read.record.into_iter().chain(read.entries.iter().map(|e| plain(e.to_bits()))));
    }

    /// 11: a slab, into a buffer with old contents. The record is listed place by place.
    pub fn slab(&mut self, record: &expected::Record, table: &Table, j: u32, k: u32, old: &Table) {
        self.asks(11, &[record, &table.text(), &[j, k], &old.text()]);
        let (entries, mut buffer) = (table.entries(), old.entries());
        self.entries += entries.len() + buffer.len();
        self.count_unequal(11, record);
        assert!(entries.len() <= ROOM);
        assert!(buffer.len() <= SLAB);
        let (j, k) = (j as usize, k as usize);
        let number = oracle::slab::record_number(record, entries.len(), j, k, buffer.len());
        if number == 0 {
            let (sizes, m) = expected::accepted(record).expect("an accepted record");
            let slab = oracle::slab::entries(&sizes, m, &entries, j, k);
            buffer[..slab.len()].copy_from_slice(&slab);
        }
        self.answers(Some(number), buffer.iter().map(|e| e.to_bits()));
    }

    /// 12: values without a header, into a buffer with old contents.
    pub fn units(&mut self, precision: u32, count: u32, old: &Table, data: &[u8]) {
        let bytes: Vec<u32> = data.iter().map(|&byte| byte as u32).collect();
        self.asks(12, &[&[precision, count], &old.text(), &[bytes.len() as u32], &bytes]);
        let read = oracle::units::read(data, precision as usize, count as usize, &old.entries());
        assert!(bytes.len().max(read.entries.len()) <= UNITS);
        self.entries += read.entries.len();
        self.answers(Some(read.number), read.entries.iter().map(|e| plain(e.to_bits())));
    }
}
