//! CLUT elements in document 02's own words (E2, E5): a header, and then values (`units`). The crate's own reading multiplies by a rounded
//! reciprocal and refuses other things, so nothing of it is used here.

use crate::expected::{self, Record};
use crate::units;

/// What reading an element leaves: the number, the layout record (zeros if refused), and the entry buffer.
#[derive(Clone, Debug)]
pub struct Read {
    pub number: u32,
    pub record: Record,
    pub entries: Vec<f32>,
}

/// The sixteen grid sizes of an element that has them.
pub fn sizes(element: &[u8]) -> Option<[u8; 16]> {
    element.get(..16)?.try_into().ok()
}

/// Order: 13, the layout's, then those of reading the data's first total values: 14, 15, 8.
pub fn number(element: &[u8], n: usize, m: usize, room: usize) -> u32 {
    let (Some(sizes), Some(data)) = (sizes(element), element.get(20..)) else {
        return 13; // element under 20 bytes
    };
    match expected::layout(&sizes, n, m) {
        0 => units::number(data.len(), element[16].into(), expected::total(&sizes[..n], m) as usize, room),
        refused => refused,
    }
}

/// Reads an element into a buffer that held `old`: the first total entries are set, no others.
pub fn read(element: &[u8], n: usize, m: usize, old: &[f32]) -> Read {
    let mut read = Read { number: number(element, n, m, old.len()), record: [0; 66], entries: old.to_vec() };
    if let (0, Some(sizes)) = (read.number, sizes(element)) {
        read.record = expected::record(&sizes, n, m);
        read.entries = units::read(&element[20..], element[16].into(), expected::total(&sizes[..n], m) as usize, old).entries;
    }
    read
}
