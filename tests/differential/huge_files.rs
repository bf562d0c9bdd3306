//! Table files of more than 2^32 bytes and tables of more than 2^30 entries, by address space: numbers of 32 bits would wrap there. In a
//! usual run no page is written but the first ones.

use crate::case::{are_unequal, Case, Run, Sort};
use crate::files::put_right;
use crate::grids::padded;
use crate::huge::Zeros;
use crate::library;
use crate::values::Rng;
use oracle::{expected, files};
use std::cell::RefCell;

/// 2^32: what a length of 32 bits would lose.
const LOST: usize = 1 << 32;

/// A write from zeros and into them, or a read from a file whose later blocks are zeros.
struct Huge<'a> {
    sizes: &'a [u8],
    m: usize,
    reading: bool,
    table: RefCell<&'a mut [f32]>,
    file: RefCell<&'a mut [u8]>,
}

impl Huge<'_> {
    /// What a refused call wrote to: of a read the first entries, of a write the ends of the file.
    fn touched(&self, number: u32, table: &[f32], file: &[u8]) -> Option<String> {
        let entries = self.reading && table.iter().take(64).any(|entry| entry.to_bits() != 0);
        let bytes = !self.reading && file.iter().take(64).chain(file.iter().rev().take(64)).any(|&byte| byte != 0);
        (number != 0 && (entries || bytes)).then(|| "a refused call wrote something".to_string())
    }
}

impl Case for Huge<'_> {
    fn number(&self) -> u32 {
        let (table, file) = (self.table.borrow(), self.file.borrow());
        if self.reading {
            return files::found(&file, table.len()).0;
        }
        files::write_number(&padded(self.sizes), self.sizes.len(), self.m, table.len(), file.len())
    }

    fn unequal(&self) -> Option<Sort> {
        are_unequal(self.sizes, self.sizes.len()).then_some(Sort::File)
    }

    fn difference(&self) -> Option<String> {
        let (right, n) = (self.number(), self.sizes.len());
        let (mut table, mut file) = (self.table.borrow_mut(), self.file.borrow_mut());
        let (mut sizes, mut told) = ([0xA5; 16], [0xA5; 2]);
        let [inks, outputs] = &mut told;
        if !self.reading {
            let got = library::write_table(&padded(self.sizes), n, self.m, &table, &mut file);
            return (got != right).then(|| format!("the number is {got}, not {right}")).or_else(|| self.touched(right, &table, &file));
        }
        let layout = library::file_layout(&file, &mut sizes, inks, outputs);
        let owed = files::layout_number(&file);
        if layout != owed || told != if owed == 0 { [n, self.m] } else { [0xA5; 2] } {
            return Some(format!("file_layout's number is {layout}, not {owed}, or it tells {told:X?}"));
        }
        let [inks, outputs] = &mut told;
        let got = library::read_table(&file, &mut sizes, inks, outputs, &mut table);
        (got != right).then(|| format!("the number is {got}, not {right}")).or_else(|| self.touched(right, &table, &file))
    }

    fn smaller(&self, _: &mut dyn FnMut(Self) -> bool) {}

    fn shown(&self) -> String {
        let call = if self.reading { "read_table" } else { "write_table" };
        let (table, file) = (self.table.borrow().len(), self.file.borrow().len());
        format!("{call}: sizes {:?}, m {}, table or buffer of {table} entries, file or buffer of {file} bytes", self.sizes, self.m)
    }
}

pub fn all(run: &mut Run, rng: &mut Rng, long: bool) {
    run.kind("table files of up to 21,747,533,312 bytes, refused; small ones in buffers of more than 4,294,967,296 bytes and entries");
    let large: [(&[u8], usize); 4] = [(&[255, 255, 255, 64], 1), (&[64, 65, 254, 255], 4), (&[254, 226, 215, 174], 2), (&[4; 15], 1)];
    for (sizes, m) in large {
        let (total, length) = (expected::total(sizes, m) as usize, files::length(expected::total(sizes, m)) as usize);
        let (Some(mut table), Some(mut file)) = (Zeros::new(total), Zeros::new(length / 4 + (LOST >> 2) + 512)) else {
            println!("            no address space for sizes {sizes:?}, m {m}: left out");
            continue;
        };
        refused(run, sizes, m, table.entries(), file.bytes());
    }
    let (Some(mut table), Some(mut file)) = (Zeros::new(LOST + 1_024), Zeros::new((LOST >> 2) + 1_024)) else {
        println!("            no address space for 2^32 entries: left out");
        return;
    };
    for (sizes, m) in [(&[1][..], 1), (&[126], 1), (&[11, 23], 1)] {
        accepted(run, rng, sizes, m, table.entries(), file.bytes());
    }
    if long {
        crate::long_files::all(run, rng);
    }
}

/// Lengths at, below and above what is needed, and where that would be with 32 bits.
fn refused(run: &mut Run, sizes: &[u8], m: usize, table: &mut [f32], file: &mut [u8]) {
    let (total, length) = (table.len(), files::length(table.len() as u128) as usize);
    let mut hold = |reading: bool, table: &mut [f32], file: &mut [u8]| {
        run.hold(Huge { sizes, m, reading, table: RefCell::new(table), file: RefCell::new(file) });
    };
    for (entries, room) in [(total - 1, length), (total - 1, 0), (total / 2, length), (0, length - 1)] {
        hold(false, &mut table[..entries], &mut file[..room]);
    }
    for room in [0, 512, length % LOST, length - LOST, length - 512, length - 1] {
        hold(false, table, &mut file[..room]);
    }
    file[..512].copy_from_slice(&files::file(sizes, m, &[]));
    // The right length finds block 1 without its number; then block 2.
    for number in [0, 1] {
        file[512 + 3] = number;
        put_right(file, 1);
        for room in [512, 1_024, length % LOST, length - LOST, length - 512, length - 1, length, length + 1, length + 512, length + LOST] {
            hold(true, &mut table[..2], &mut file[..room]);
        }
    }
    file[..1_024].fill(0);
}

/// A small file: written and read where the low 32 bits of a buffer's length are too few, refused where those of the file's length are
/// right.
fn accepted(run: &mut Run, rng: &mut Rng, sizes: &[u8], m: usize, table: &mut [f32], file: &mut [u8]) {
    let (total, length) = (expected::total(sizes, m) as usize, files::length(expected::total(sizes, m)) as usize);
    table[..total].fill_with(|| rng.bits());
    let right = files::file(sizes, m, &table[..total]);
    let (more, longer) = (LOST + total, LOST + length);
    for (entries, room) in [(LOST, LOST), (more - 1, length), (total, longer - 1), (more, LOST), (LOST, length - 1)] {
        file[..length].fill(0);
        let call = Huge { sizes, m, reading: false, table: RefCell::new(&mut table[..entries]), file: RefCell::new(&mut file[..room]) };
        let number = call.number();
        run.hold(call);
        assert!(if number == 0 { file[..length] == right } else { file[..length].iter().all(|&byte| byte == 0) }, "the file is not right");
    }
    file[..length].copy_from_slice(&right);
    for (entries, room) in [(LOST, length), (more - 1, length), (total, longer), (total, LOST), (total, LOST + 100), (total - 1, longer)] {
        table[..total].fill(0.0);
        let call = Huge { sizes, m, reading: true, table: RefCell::new(&mut table[..entries]), file: RefCell::new(&mut file[..room]) };
        let number = call.number();
        run.hold(call);
        let owed = if number == 0 { files::entries(&right) } else { vec![0.0; total] };
        assert!(table[..total].iter().zip(&owed).all(|(got, right)| got.to_bits() == right.to_bits()), "the entries are not right");
        table[..total].copy_from_slice(&files::entries(&right));
    }
}
