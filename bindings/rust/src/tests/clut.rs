//! CLUT elements.

use super::{std::vec, std::vec::Vec, UNTOUCHED};
use crate::{lookup, read_clut, Grid, Refusal};

/// An element of two inks in, two out and two lines: twice the sizes 2, then sizes that do not count; padding that is not 0.
fn element(precision: u8, data: &[u8]) -> Vec<u8> {
    let mut bytes = vec![9; 20];
    bytes[..2].fill(2);
    bytes[16] = precision;
    bytes.extend(data);
    bytes
}

#[test]
fn a_clut_of_either_precision() {
    let sixteen: Vec<u8> = [0u16, 1, 256, 32768, 65279, 65534, 65535, 21845]
        .iter()
        .flat_map(|v| v.to_be_bytes())
        .collect();
    let cases = [
        (element(1, &[0, 1, 2, 51, 128, 254, 255, 85]), 255.0),
        (element(2, &sixteen), 65535.0),
    ];
    for (bytes, most) in cases {
        let mut entries = [UNTOUCHED; 10];
        let grid = read_clut(&bytes, 2, 2, &mut entries).unwrap();
        assert_eq!((grid, grid.total()), (Grid::new(2, 2, 2), Ok(8)));
        let width = bytes[16] as usize;
        for (value, entry) in bytes[20..].chunks(width).zip(entries) {
            let value = value.iter().fold(0, |v, &b| v * 256 + b as u32);
            assert_eq!(entry, value as f32 / most);
        }
        assert_eq!(entries[8..], [UNTOUCHED; 2]);
        let mut answer = [UNTOUCHED; 2];
        assert_eq!(lookup(&grid, &entries, &[1.0, 0.0], &mut answer), Ok(()));
        assert_eq!(answer, entries[4..6]);
    }
}

#[test]
fn refused_cluts_write_nothing() {
    let good = element(1, &[51; 8]);
    let with = |place: usize, byte: u8| {
        let mut bytes = good.clone();
        bytes[place] = byte;
        bytes
    };
    let cases = [
        (good[..19].to_vec(), 0, 2, 0, 13),
        (good[..20].to_vec(), 0, 0, 0, 1),
        (good.clone(), 16, 2, 8, 1),
        (good.clone(), 2, 0, 8, 2),
        (good.clone(), 2, 16, 8, 2),
        (with(1, 0), 2, 2, 8, 3),
        (vec![4; 20], 15, 4, 0, 5),
        (with(16, 0)[..20].to_vec(), 2, 2, 0, 14),
        (with(16, 3), 2, 2, 8, 14),
        (good[..27].to_vec(), 2, 2, 0, 15),
        (with(16, 2), 2, 2, 8, 15),
        (with(1, 3), 2, 2, 8, 15),
        (good.clone(), 2, 2, 7, 8),
    ];
    for (bytes, n, m, room, number) in cases {
        let mut entries = [UNTOUCHED; 8];
        let refusal = read_clut(&bytes, n, m, &mut entries[..room]).unwrap_err();
        assert_eq!(refusal.number(), number, "{bytes:?}, {n}, {m}, {room}");
        assert_eq!(entries, [UNTOUCHED; 8]);
    }
    let mut longer = good.clone();
    longer.push(7);
    for bytes in [good, longer] {
        let mut entries = [UNTOUCHED; 9];
        assert_eq!(read_clut(&bytes, 2, 2, &mut entries).unwrap().n, 2);
        assert_eq!(entries[..8], [0.2; 8]);
        assert_eq!(entries[8], UNTOUCHED);
    }
}

#[test]
fn totals() {
    assert_eq!(Grid::new(17, 4, 3).total(), Ok(250_563));
    assert_eq!(Grid::new(1, 1, 1).total(), Ok(1));
    assert_eq!(Grid::new(4, 15, 3).total(), Ok(3_221_225_472));
    assert_eq!(Grid::new(255, 4, 1).total(), Ok(4_228_250_625));
    assert_eq!(Grid::new(4, 15, 4).total(), Err(Refusal::LargeTotal));
    assert_eq!(Grid::new(2, 16, 1).total(), Err(Refusal::InputInks));
}
