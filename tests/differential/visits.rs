//! Which parts of a table a lookup with skipping touches (document 02, E6): where the weight is 0 it visits only the lower part. The
//! system lends the table page by page as it is touched, and tells which pages it lent. Where it does not tell, that is said and nothing
//! is compared.

use crate::case::Run;
use crate::grids::{padded, visited};
use crate::huge::Zeros;
use crate::library;
use crate::values::{with_idle, Rng};
use std::ffi::c_void;

extern "C" {
    fn madvise(address: *mut c_void, len: usize, advice: i32) -> i32;
    fn mincore(address: *mut c_void, len: usize, lent: *mut u8) -> i32;
    fn sysconf(name: i32) -> i64;
}

/// Eight inks of two lines, and two within a part of 16 KB: each corner of the eight has a part of its own.
const SIZES: [u8; 10] = [2, 2, 2, 2, 2, 2, 2, 2, 32, 128];
const OUTER: usize = 8;
const PART: usize = 32 * 128;
const PARTS: usize = 1 << OUTER;

/// The parts that a call touches. None of them is lent before it: the advice is 15, no large pages, and then 4, to forget what was (the
/// Linux numbers).
fn touched(zeros: &mut Zeros, call: impl FnOnce(&[f32]) -> u32) -> Option<Vec<usize>> {
    let (table, page) = (zeros.entries(), unsafe { sysconf(30) } as usize);
    let (start, bytes) = (table.as_mut_ptr().cast::<c_void>(), 4 * table.len());
    let pages = (page > 0 && page <= 4 * PART).then_some(bytes / page)?;
    let forgotten = unsafe {
        madvise(start, bytes, 15);
        madvise(start, bytes, 4)
    };
    assert_eq!(call(table), 0, "a good call is refused");
    let mut lent = vec![0u8; pages];
    let told = forgotten == 0 && unsafe { mincore(start, bytes, lent.as_mut_ptr()) } == 0;
    told.then(|| (0..PARTS).filter(|part| lent[part * pages / PARTS..][..pages / PARTS].iter().any(|page| page & 1 == 1)).collect())
}

/// Whether the system tells what was touched: nothing, and one part.
fn tells(zeros: &mut Zeros) -> bool {
    let nothing = touched(zeros, |_| 0);
    nothing == Some(vec![]) && touched(zeros, |table| table[5 * PART].to_bits()) == Some(vec![5])
}

/// Every set of idle inks among eight: the call with skipping touches no part but those of the nodes that are to be visited. The plain
/// lookup does.
pub fn parts(run: &mut Run, rng: &mut Rng) {
    run.kind("with skipping: the parts of a table that are touched, every set of idle inks among eight");
    let Some(mut zeros) = Zeros::new(PARTS * PART).and_then(|mut zeros| tells(&mut zeros).then_some(zeros)) else {
        return println!("            the system does not tell which parts of a table are touched: left out");
    };
    let (sizes, mut few, mut many, mut more) = (padded(&SIZES), 0, 0, 0);
    for set in 0..PARTS {
        // The inks within a part stand on its lower lines: what is read beside a node is in the part too.
        let inputs = [with_idle(rng, &SIZES[..OUTER], set), vec![0.4 * rng.unit(), 0.4 * rng.unit()]].concat();
        let (owed, mut answer, mut reads) = (visited(&SIZES[..OUTER], &inputs[..OUTER]), [0.0; 1], 0);
        let call = |table: &[f32]| library::lookup_skipping(&sizes, 10, 1, table, &inputs, &mut answer, &mut reads);
        let skipping = touched(&mut zeros, call).unwrap_or_default();
        let plain = touched(&mut zeros, |table| library::lookup(&sizes, 10, 1, table, &inputs, &mut answer)).unwrap_or_default();
        let past = |parts: &[usize]| parts.iter().any(|part| !owed.contains(part));
        if skipping.is_empty() || past(&skipping) {
            println!("DIFFERENT: with skipping, sizes {SIZES:?}, inputs {inputs:?}");
            println!("touched are the parts {skipping:?}\nto be visited were {owed:?}");
            std::process::exit(1);
        }
        (few, many, more) = (few + skipping.len(), many + plain.len(), more + usize::from(past(&plain)));
    }
    assert!(more > 0, "the plain lookup touches no part of an idle ink's upper node either");
    println!("            they touch {few} parts, all to be visited; the plain lookups touch {many}, and in {more} of the calls others");
    run.compared(PARTS as u64);
}
