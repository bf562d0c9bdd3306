//! A table file of more than 2^32 bytes written and read for real. The table's parts are one memory, so are those of the buffer it is read
//! into; the file needs its 4.3 GB, and is left out where the system has not twice as much to spare.

use crate::case::Run;
use crate::grids::padded;
use crate::huge::{Zeros, PART};
use crate::library;
use crate::values::Rng;
use oracle::{expected, files};

/// 1,061,208,000 entries.
const SIZES: [u8; 4] = [255, 255, 255, 64];

/// The bytes of memory that are to spare.
fn spare() -> u64 {
    let told = std::fs::read_to_string("/proc/meminfo").unwrap_or_default();
    let line = told.lines().find_map(|line| line.strip_prefix("MemAvailable:"));
    line.and_then(|rest| rest.trim().strip_suffix(" kB")).and_then(|kb| kb.trim().parse::<u64>().ok()).unwrap_or(0) * 1_024
}

pub fn all(run: &mut Run, rng: &mut Rng) {
    run.kind("a table file of more than 4,294,967,296 bytes, written and read");
    let total = expected::total(&SIZES, 1) as usize;
    let length = files::length(total as u128) as usize;
    let memory = (Zeros::folded(total), Zeros::folded(total), Zeros::new(length / 4 + 1));
    let (true, (Some(mut table), Some(mut back), Some(mut file))) = (spare() > 2 * length as u64, memory) else {
        println!("            no memory for a file of {length} bytes: left out");
        return;
    };
    // One part that is seen again and again, the first one and the last ones of their own.
    let (table, back, file) = (table.entries(), back.entries(), file.bytes());
    table[..2 * PART].fill_with(|| rng.bits());
    table[total - PART..].fill_with(|| rng.bits());
    assert_eq!(library::write_table(&padded(&SIZES), 4, 1, table, &mut file[..length]), 0);
    assert!(file[length..].iter().all(|&byte| byte == 0), "bytes after the file were written");
    assert_eq!(file[..512], files::file(&SIZES, 1, &[]), "block 0");
    for (number, (block, part)) in (1..).zip(file[512..length].chunks(512).zip(table.chunks(files::ENTRIES))) {
        let contents: Vec<u8> = part.iter().flat_map(|entry| entry.to_bits().to_be_bytes()).collect();
        assert!(block == files::block(number, &contents), "block {number} of the file");
    }
    run.compared(1);
    read(run, table, back, file, length);
}

/// Reads it: with the last byte of its last check changed, whole, and into a buffer that is too short by one.
fn read(run: &mut Run, table: &[f32], back: &mut [f32], file: &mut [u8], length: usize) {
    let (mut sizes, mut n, mut m, total) = ([0; 16], 0, 0, table.len());
    for (damaged, number) in [(true, 18), (false, 0)] {
        file[length - 1] ^= u8::from(damaged);
        let room = if damaged { 0 } else { total };
        assert_eq!(library::read_table(&file[..length], &mut sizes, &mut n, &mut m, &mut back[..room]), number);
        file[length - 1] ^= u8::from(damaged);
        run.compared(u64::from(!damaged));
    }
    assert_eq!(library::read_table(&file[..length], &mut sizes, &mut n, &mut m, &mut back[..total - 1]), 8);
    assert_eq!((&sizes[..5], n, m), (&[255, 255, 255, 64, 0][..], 4, 1));
    let ends = (0..PART).chain(total - PART..total);
    assert!(ends.into_iter().all(|e| back[e].to_bits() == table[e].to_bits()), "the entries read are not those written");
}
