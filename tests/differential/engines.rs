//! A lookup asked of both engines: the library's, and the first one, which the crate `first` exports for the tests alone.

use crate::case::{compare, guarded, GUARD};
use crate::library;
use std::sync::atomic::{AtomicU64, Ordering::Relaxed};

#[link(name = "first", kind = "static")]
extern "C" {
    fn first_lookup(
        sizes: *const u8, n: usize, m: usize, table: *const f32, table_len: usize, inputs: *const f32, inputs_len: usize,
        answer: *mut f32, answer_len: usize,
    ) -> u32;
}

/// How many lookups both engines were asked.
static ASKED: AtomicU64 = AtomicU64::new(0);

pub fn asked() -> u64 {
    ASKED.load(Relaxed)
}

/// The numbers of both engines, the library's before the first one's; each has a buffer of its own.
#[inline]
pub fn ask(sizes: &[u8; 16], n: usize, m: usize, table: &[f32], inputs: &[f32], [ours, first]: [&mut [f32]; 2]) -> [u32; 2] {
    ASKED.store(asked() + 1, Relaxed);
    let number = library::lookup(sizes, n, m, table, inputs, ours);
    let of_first = unsafe {
        first_lookup(
            sizes.as_ptr(), n, m, table.as_ptr(), table.len(), inputs.as_ptr(), inputs.len(), first.as_mut_ptr(), first.len(),
        )
    };
    [number, of_first]
}

/// The library's number and its guarded buffer, and in words where the first engine has another number or buffer.
pub struct Answer {
    pub number: u32,
    pub buffer: Vec<f32>,
    pub apart: Option<String>,
}

/// A lookup with a buffer of `len` for each engine.
pub fn lookup(sizes: &[u8; 16], n: usize, m: usize, table: &[f32], inputs: &[f32], len: usize) -> Answer {
    let mut buffers = [guarded(len), guarded(len)];
    let lent = buffers.each_mut().map(|buffer| &mut buffer[GUARD..GUARD + len]);
    let [number, of_first] = ask(sizes, n, m, table, inputs, lent);
    let [buffer, first] = buffers;
    let answers = buffer[GUARD..GUARD + len].get(..m).filter(|_| number == 0).unwrap_or(&[]);
    let apart = if of_first == number { compare(&first, answers) } else { Some(format!("its number is {of_first}, not {number}")) };
    Answer { number, apart: apart.map(|told| format!("the first engine beside the library: {told}")), buffer }
}
