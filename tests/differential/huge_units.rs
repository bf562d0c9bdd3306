//! Up to 4,294,967,301 values, 8.6 GB of data and buffers of 17 GB of address space, at the limits of their lengths: numbers of 32 bits
//! would wrap there. Of the data, and of a buffer where the call is refused, no pages are written but the few that are looked at.

use crate::case::{number, sentinel, Case, Run};
use crate::huge::Zeros;
use crate::library;
use crate::values::Rng;
use oracle::units;
use std::cell::RefCell;
use std::ops::Range;

/// How many bytes at either end of the data are not 0, and how many entries are looked at in one place.
const END: usize = 128;

struct Huge<'a> {
    data: &'a [u8],
    precision: usize,
    count: usize,
    entries: RefCell<&'a mut [f32]>,
}

/// The start, the middle and the end of a buffer.
fn looked_at(len: usize) -> impl Iterator<Item = Range<usize>> {
    [0, len / 2, len.saturating_sub(END)].into_iter().map(move |from| from..len.min(from + END))
}

impl Huge<'_> {
    /// What a call that is done leaves in these places of a buffer of sentinels.
    fn read(&self, places: &Range<usize>) -> Vec<f32> {
        let end = places.end.min(self.count);
        let data = &self.data[self.precision * places.start..self.precision * end];
        units::read(data, self.precision, end - places.start, &places.clone().map(sentinel).collect::<Vec<f32>>()).entries
    }
}

impl Case for Huge<'_> {
    fn number(&self) -> u32 {
        units::number(self.data.len(), self.precision, self.count, self.entries.borrow().len())
    }

    fn difference(&self) -> Option<String> {
        let right = self.number();
        let mut entries = self.entries.borrow_mut();
        looked_at(entries.len()).flatten().for_each(|place| entries[place] = sentinel(place));
        let got = library::read_units(self.data, self.precision, self.count, &mut entries);
        if got != right {
            return Some(format!("the number is {got}, not {right}"));
        }
        looked_at(entries.len()).find_map(|places| {
            let old = || places.clone().map(sentinel).collect();
            let right = if right == 0 { self.read(&places) } else { old() };
            let unlike = |&(place, entry): &(usize, f32)| entries[place].to_bits() != entry.to_bits();
            let (place, entry) = places.zip(right).find(unlike)?;
            Some(format!("entry {place} is {}, not {}", number(entries[place]), number(entry)))
        })
    }

    fn smaller(&self, _: &mut dyn FnMut(Self) -> bool) {}

    fn shown(&self) -> String {
        let (bytes, room) = (self.data.len(), self.entries.borrow().len());
        let Huge { precision, count, .. } = self;
        format!("read_units: {bytes} bytes, all 0 but some at the ends, precision {precision}, count {count}, buffer of {room}")
    }
}

pub fn all(run: &mut Run, rng: &mut Rng, long: bool) {
    run.kind("units of up to 4,294,967,297 values, refused");
    let counts = [(1 << 31) - 1, 1 << 31, (1 << 31) + 1, (1 << 32) - 1, 1 << 32, (1 << 32) + 1];
    let largest = (1 << 32) + 2;
    let (Some(mut data), Some(mut buffer)) = (Zeros::new(largest / 2), Zeros::new(largest)) else {
        println!("            no address space for so many: left out");
        return;
    };
    data.bytes()[..END].fill(255);
    for (count, precision) in counts.into_iter().flat_map(|count| [1, 2, 3, (1 << 32) + 1].map(|precision| (count, precision))) {
        around(run, data.bytes(), buffer.entries(), precision, count);
    }
    if long {
        run.kind("units of 4,294,967,301 values of one byte and of 2,147,483,653 of two, read");
        done(run, rng, 1, (1 << 32) + 5);
        done(run, rng, 2, (1 << 31) + 5);
    }
}

/// Data at, below and above the needed length, and where it would be with 32 bits; buffers likewise. What would be accepted is left out.
fn around(run: &mut Run, data: &[u8], entries: &mut [f32], precision: usize, count: usize) {
    let (needed, word) = (count * precision.min(2), 1 << 32);
    for length in [0, 1, needed % word, needed % word + 1, needed - 1, needed, needed + 1] {
        for room in [0, 1, count % word, count - 1, count, count + 1] {
            let call = Huge { data: &data[..length], precision, count, entries: RefCell::new(&mut entries[..room]) };
            if call.number() != 0 {
                run.hold(call);
            }
        }
    }
}

/// A call that is done. Most of the buffer is one part of memory, written over and over with +0.0.
fn done(run: &mut Run, rng: &mut Rng, precision: usize, count: usize) {
    let bytes = precision * count;
    let (Some(mut data), Some(mut buffer)) = (Zeros::new(bytes / 4 + 1), Zeros::folded(count + END / 2)) else {
        println!("            no address space for {count} values: left out");
        return;
    };
    for place in (0..END).chain(bytes - END..bytes) {
        data.bytes()[place] = rng.within(1, 255) as u8;
    }
    run.hold(Huge { data: &data.bytes()[..bytes], precision, count, entries: RefCell::new(buffer.entries()) });
}
