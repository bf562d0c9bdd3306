//! CLUT elements: reading one as a compared call, and a lookup in the table that was read.

use crate::case::{are_unequal, compare, compare_bits, guarded, numbers, sentinel, Case, Sort, GUARD};
use crate::engines;
use crate::grids::padded;
use crate::library;
use oracle::{clut, expected};

/// The sizes beforehand: bytes that no call should leave changed on a refusal.
const UNTOUCHED: u8 = 0xA5;

#[derive(Clone)]
pub struct Clut {
    pub element: Vec<u8>,
    pub n: usize,
    pub m: usize,
    /// The entry buffer beforehand.
    pub old: Vec<f32>,
}

impl Clut {
    /// An element and its head; the sizes after those in use are the first one again, the padding is not 0 and the data follows.
    pub fn good(sizes: &[u8], m: usize, precision: u8, data: &[u8]) -> Clut {
        let mut element = padded(sizes).to_vec();
        element.extend([precision, 0xEE, 0xFF, 0x01]);
        element.extend(data);
        let total = expected::total(sizes, m) as usize;
        Clut { element, n: sizes.len(), m, old: (0..total).map(sentinel).collect() }
    }
}

/// The sizes afterwards: the record's where the call is done, the element's first n and then zeros.
fn sizes_after(read: &clut::Read) -> [u8; 16] {
    if read.number == 0 { std::array::from_fn(|ink| read.record[48 + ink] as u8) } else { [UNTOUCHED; 16] }
}

impl Case for Clut {
    fn number(&self) -> u32 {
        clut::number(&self.element, self.n, self.m, self.old.len())
    }

    fn unequal(&self) -> Option<Sort> {
        are_unequal(&self.element[..self.element.len().min(16)], self.n).then_some(Sort::Element)
    }

    fn difference(&self) -> Option<String> {
        let len = self.old.len();
        let mut buffer = guarded(len);
        buffer[GUARD..GUARD + len].copy_from_slice(&self.old);
        let mut sizes = [UNTOUCHED; 16];
        let got = library::read_clut(&self.element, self.n, self.m, &mut sizes, &mut buffer[GUARD..GUARD + len]);
        let right = clut::read(&self.element, self.n, self.m, &self.old);
        if got != right.number {
            return Some(format!("the number is {got}, not {}", right.number));
        }
        if sizes != sizes_after(&right) {
            return Some(format!("the sizes are {sizes:?}, not {:?}", sizes_after(&right)));
        }
        compare_bits(&buffer, &right.entries)
    }

    fn smaller(&self, take: &mut dyn FnMut(Self) -> bool) {
        let of_element = |length: usize| Clut { element: self.element[..length].to_vec(), ..self.clone() };
        let of_room = |length: usize| Clut { old: self.old[..length].to_vec(), ..self.clone() };
        for part in [2, 4, 16, 64, usize::MAX] {
            let (bytes, places) = (self.element.len(), self.old.len());
            if bytes > 0 && take(of_element(bytes - (bytes / part).max(1))) || places > 0 && take(of_room(places - (places / part).max(1))) {
                return;
            }
        }
        for (n, m) in [(self.n.wrapping_sub(1), self.m), (self.n, self.m.wrapping_sub(1))] {
            if n.max(m) < 20 && take(Clut { n, m, ..self.clone() }) {
                return;
            }
        }
        for place in (17..self.element.len()).filter(|&place| self.element[place] != 0) {
            let mut call = self.clone();
            call.element[place] = 0;
            if take(call) {
                return;
            }
        }
    }

    fn shown(&self) -> String {
        let head = &self.element[..self.element.len().min(20)];
        let data = &self.element[head.len()..];
        format!(
            "read_clut: element of {} bytes, the first {head:?}, then {:02X?}{}\n  n {}, m {}\n  buffer of {}",
            self.element.len(), &data[..data.len().min(256)], if data.len() > 256 { " and more" } else { "" }, self.n, self.m, numbers(&self.old)
        )
    }
}

/// A lookup by the library in what it read, against the oracle's lookup in what the oracle read.
#[derive(Clone)]
pub struct ReadLookup {
    pub clut: Clut,
    pub inputs: Vec<f32>,
}

impl Case for ReadLookup {
    fn number(&self) -> u32 {
        self.clut.number()
    }

    fn parted(&self) -> Option<bool> {
        let Clut { element, n, m, old } = &self.clut;
        let read = clut::read(element, *n, *m, old);
        (read.number == 0).then(|| oracle::parted(&element[..*n], *m, &read.entries, &self.inputs)).flatten()
    }

    fn unequal(&self) -> Option<Sort> {
        self.clut.unequal().map(|_| Sort::Lookup)
    }

    fn difference(&self) -> Option<String> {
        let Clut { element, n, m, old } = &self.clut;
        let (mut entries, mut sizes) = (old.clone(), [UNTOUCHED; 16]);
        let got = library::read_clut(element, *n, *m, &mut sizes, &mut entries);
        let right = clut::read(element, *n, *m, old);
        if (got, right.number) != (0, 0) {
            return Some(format!("the number is {got}, and should be {}; only what is read is looked up in", right.number));
        }
        let answer = engines::lookup(&sizes, *n, *m, &entries, &self.inputs, *m);
        if answer.number != 0 {
            return Some(format!("the lookup's number is {}, not 0", answer.number));
        }
        compare(&answer.buffer, &oracle::lookup(&element[..*n], *m, &right.entries, &self.inputs)).or(answer.apart)
    }

    fn smaller(&self, take: &mut dyn FnMut(Self) -> bool) {
        for i in 0..self.inputs.len() {
            let mut call = self.clone();
            call.inputs[i] = 0.0;
            if self.inputs[i].to_bits() != 0 && take(call) {
                return;
            }
        }
        for place in (20..self.clut.element.len()).filter(|&place| self.clut.element[place] != 0) {
            let mut call = self.clone();
            call.clut.element[place] = 0;
            if take(call) {
                return;
            }
        }
    }

    fn shown(&self) -> String {
        format!("{}\n  then a lookup at {}", self.clut.shown(), numbers(&self.inputs))
    }
}
