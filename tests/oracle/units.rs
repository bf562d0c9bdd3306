//! Values of one byte or two as numbers from 0 to 1, in document 02's own words (E2): the data of a CLUT element, also without its header.

/// What reading values leaves: the number, and the entry buffer.
#[derive(Clone, Debug)]
pub struct Read {
    pub number: u32,
    pub entries: Vec<f32>,
}

/// Order: 14, 15, then 8. The bytes needed are exact for any count.
pub fn number(data: usize, precision: usize, count: usize, room: usize) -> u32 {
    if precision != 1 && precision != 2 {
        return 14; // precision neither 1 nor 2
    }
    if (data as u128) < precision as u128 * count as u128 {
        return 15; // too little data
    }
    if room < count {
        return 8; // a buffer shorter than the count
    }
    0
}

/// The first values of accepted data: v/255 of one byte or v/65535 of two, big-endian, one rounded division.
fn values(data: &[u8], precision: usize, count: usize) -> Vec<f32> {
    if precision == 1 {
        return data[..count].iter().map(|&v| f32::from(v) / 255.0).collect();
    }
    data.chunks_exact(2).take(count).map(|pair| f32::from(u16::from_be_bytes([pair[0], pair[1]])) / 65535.0).collect()
}

/// Reads values into a buffer that held `old`: the first `count` entries are set, no others.
pub fn read(data: &[u8], precision: usize, count: usize, old: &[f32]) -> Read {
    let mut read = Read { number: number(data.len(), precision, count, old.len()), entries: old.to_vec() };
    if read.number == 0 {
        read.entries[..count].copy_from_slice(&values(data, precision, count));
    }
    read
}
