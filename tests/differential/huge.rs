//! Lookups in tables up to the largest total, 4,294,967,295 entries: offsets near the limit of 32 bits. Such a table is
//! 17 GB of address space whose pages are never touched, but for the few nodes around the inputs. Where the system does
//! not lend so much address space the kind says so and compares nothing.

use crate::case::Run;
use crate::grids::{equal, padded};
use crate::lookups::{hold, Hold, Lookup};
use crate::values::{before, random_numbers, skipping, Rng};
use oracle::{definition::product, expected, skips};
use std::ffi::{c_char, c_void};
use std::fs::File;
use std::os::fd::FromRawFd;

extern "C" {
    fn mmap(address: *mut c_void, len: usize, protection: i32, flags: i32, file: i32, offset: i64) -> *mut c_void;
    fn munmap(address: *mut c_void, len: usize) -> i32;
    fn memfd_create(name: *const c_char, flags: u32) -> i32;
}

/// How many entries of a folded buffer are one part.
pub const PART: usize = 1 << 20;

/// Zeros without memory of their own: read and write, private, anonymous, not reserved (the Linux numbers).
pub struct Zeros {
    start: *mut f32,
    entries: usize,
}

impl Zeros {
    pub fn new(entries: usize) -> Option<Zeros> {
        let start = unsafe { mmap(std::ptr::null_mut(), entries * 4, 1 | 2, 0x2 | 0x20 | 0x4000, -1, 0) };
        (start as isize != -1).then_some(Zeros { start: start.cast(), entries })
    }
    /// A buffer that can be written all over: its parts are one and the same memory, but for the first and for those at the end.
    pub fn folded(entries: usize) -> Option<Zeros> {
        let zeros = Zeros::new(entries)?;
        let number = unsafe { memfd_create(b"part\0".as_ptr().cast(), 0) };
        let file = (number >= 0).then(|| unsafe { File::from_raw_fd(number) })?;
        file.set_len(4 * PART as u64).ok()?;
        // Read and write, shared, at exactly this address.
        let fold = |part| unsafe { mmap(zeros.start.add(part * PART).cast(), 4 * PART, 1 | 2, 0x1 | 0x10, number, 0) as isize != -1 };
        (1..entries / PART - 1).all(fold).then_some(zeros)
    }
    pub fn entries(&mut self) -> &mut [f32] {
        unsafe { std::slice::from_raw_parts_mut(self.start, self.entries) }
    }
    pub fn bytes(&mut self) -> &mut [u8] {
        unsafe { std::slice::from_raw_parts_mut(self.start.cast(), self.entries * 4) }
    }
}

impl Drop for Zeros {
    fn drop(&mut self) {
        unsafe { munmap(self.start.cast(), self.entries * 4) };
    }
}

pub fn lookups(run: &mut Run, rng: &mut Rng, long: bool) {
    let kinds = ["lookups in tables of up to 4,294,967,295 entries", "lookups with unequal sizes in tables of up to 4,294,967,280 entries"];
    all(run, rng, kinds, hold, long);
}

/// With equal sizes, and then with unequal ones, a kind each.
pub fn all(run: &mut Run, rng: &mut Rng, [of_equal, of_unequal]: [&'static str; 2], hold: Hold, long: bool) {
    run.kind(of_equal);
    // The largest accepted layouts for four to eight inks; five of 66 lines, the fewest with which p+1 skips a node just under 64.
    for (g, n, m) in [(255, 4, 1), (138, 4, 11), (84, 5, 1), (66, 5, 3), (40, 6, 1), (23, 7, 1), (15, 8, 1)] {
        within(run, rng, &equal(g, n), m, hold, long);
    }
    run.kind(of_unequal);
    for (sizes, m) in UNEQUAL {
        within(run, rng, sizes, m, hold, long);
    }
}

/// Unequal sizes with totals at or near the largest, 4,294,967,280: the large ones first, last and between.
pub const UNEQUAL: [(&[u8], usize); 7] = [
    (&[254, 226, 215, 174], 2), (&[2, 174, 215, 226, 254], 1), (&[255, 255, 255, 17], 15), (&[2, 3, 2, 3, 254, 254, 254], 7),
    (&[255, 3, 2, 254, 2, 2, 255], 10), (&[3, 130, 2, 2, 255, 2, 255, 21], 1), (&[1, 255, 1, 1, 1, 1, 255, 1, 1, 255, 1, 1, 1, 1, 255], 1),
];

/// Lookups in one such table: at the last node, just under it, just under 64 and 128, and anywhere.
fn within(run: &mut Run, rng: &mut Rng, sizes: &[u8], m: usize, hold: Hold, long: bool) {
    let n = sizes.len();
    assert_eq!(expected::layout(&padded(sizes), n, m), 0);
    let Some(mut zeros) = Zeros::new(expected::total(sizes, m) as usize) else {
        println!("            no address space for sizes {sizes:?}, m {m}: left out");
        return;
    };
    let mut inputs = vec![0.0; n];
    for i in 0..if long { 400 } else { 40 } {
        random_numbers(rng, sizes, &mut inputs);
        let ink = n - 1 - i / 4 % 2;
        match i % 4 {
            0 => inputs.fill(1.0),
            1 => inputs.fill(before(1.0)),
            2 => inputs[ink] = skipping(sizes[ink]).last().copied().unwrap_or(1.0),
            _ => {}
        }
        around(rng, zeros.entries(), sizes, m, &inputs);
        hold(run, Lookup::good(sizes, m, &*zeros.entries(), &inputs));
    }
}

/// Random entries at the nodes around the inputs: those of each ink's line, of the next and, where p+1 skips that one, of the one after it.
pub fn around(rng: &mut Rng, table: &mut [f32], sizes: &[u8], m: usize, inputs: &[f32]) {
    let mut nodes = vec![0];
    for (&size, &x) in sizes.iter().zip(inputs) {
        let low = product(size, x) as usize;
        let high = (low + 1 + usize::from(skips(size, x))).min(size as usize - 1);
        nodes = nodes.iter().flat_map(|node| (low..=high).map(move |k| node * size as usize + k)).collect();
    }
    for node in nodes {
        table[node * m..][..m].fill_with(|| rng.unit());
    }
}
