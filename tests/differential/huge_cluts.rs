//! CLUT elements of up to 8 GB with buffers of up to 17 GB of address space, at the limits of their lengths: numbers of 32 bits would wrap there.
//! Every call is refused, so that no page is written but the element's first.

use crate::case::{are_unequal, Case, Run, Sort};
use crate::grids::{equal, padded};
use crate::huge::{Zeros, UNEQUAL};
use crate::library;
use oracle::{clut, expected};
use std::cell::RefCell;

struct Huge<'a> {
    element: &'a [u8],
    n: usize,
    m: usize,
    /// Zeros, beforehand and afterwards.
    entries: RefCell<&'a mut [f32]>,
}

impl Case for Huge<'_> {
    fn number(&self) -> u32 {
        clut::number(self.element, self.n, self.m, self.entries.borrow().len())
    }

    fn unequal(&self) -> Option<Sort> {
        are_unequal(&self.element[..16], self.n).then_some(Sort::Element)
    }

    fn difference(&self) -> Option<String> {
        let number = self.number();
        let mut entries = self.entries.borrow_mut();
        let mut sizes = [0xA5; 16];
        let got = library::read_clut(self.element, self.n, self.m, &mut sizes, &mut entries);
        if got != number {
            return Some(format!("the number is {got}, not {number}"));
        }
        let ends = entries.iter().take(64).chain(entries.iter().rev().take(64));
        let touched = sizes != [0xA5; 16] || ends.into_iter().any(|e| e.to_bits() != 0);
        touched.then(|| "the sizes or the ends of the buffer were touched".to_string())
    }

    fn smaller(&self, _: &mut dyn FnMut(Self) -> bool) {}

    fn shown(&self) -> String {
        let (head, room) = (&self.element[..self.element.len().min(20)], self.entries.borrow().len());
        format!("read_clut: element of {} bytes, the first {head:?}, all others 0, n {}, m {}, buffer of {room}", self.element.len(), self.n, self.m)
    }
}

pub fn refused(run: &mut Run) {
    run.kind("CLUTs of up to 8,456,501,270 bytes, refused");
    // 2 · 4^15 · 2 is 2^32; then the largest totals of 4 and of 15 inks.
    for (g, n, m) in [(4, 15, 2), (255, 4, 1), (4, 15, 3), (4, 15, 1)] {
        every_precision(run, &equal(g, n), m);
    }
    run.kind("CLUTs with unequal sizes of up to 8,589,934,581 bytes, refused");
    for (sizes, m) in UNEQUAL {
        every_precision(run, sizes, m);
    }
}

fn every_precision(run: &mut Run, sizes: &[u8], m: usize) {
    let total = expected::total(sizes, m) as usize;
    let (Some(mut element), Some(mut buffer)) = (Zeros::new(total / 2 + 8), Zeros::new(total)) else {
        println!("            no address space for sizes {sizes:?}, m {m}: left out");
        return;
    };
    for precision in [1, 2, 3] {
        let bytes = element.bytes();
        bytes[..16].copy_from_slice(&padded(sizes));
        bytes[16] = precision;
        around(run, bytes, buffer.entries(), sizes.len(), m, 20 + total * precision.min(2) as usize);
    }
}

/// Elements at, below and above the needed length, and where it would be with 32 bits; buffers that are too short, if only by one.
fn around(run: &mut Run, element: &[u8], entries: &mut [f32], n: usize, m: usize, needed: usize) {
    let low_word = 20 + (needed - 20) % (1 << 32);
    let total = entries.len();
    for length in [20, 24, low_word, low_word + 1, needed - 1, needed, needed + 1] {
        for room in [0, 1, total - 1] {
            run.hold(Huge { element: &element[..length], n, m, entries: RefCell::new(&mut entries[..room]) });
        }
    }
}
