//! Table files (document 02, E9): writing one and reading one as compared calls. What is written is read back and what is read is written
//! back, by the library.

use crate::case::{are_unequal, compare_bits, guarded, numbers, sentinel, Case, Sort, GUARD};
use crate::filed::{nans, Filed};
use crate::library;
use oracle::{expected, files};
use std::borrow::Cow;

/// What stands where sizes, counts and a length go before a call.
const SIZES: [u8; 16] = [0xA5; 16];
const COUNT: usize = 0xA5A5_5A5A_A5A5_5A5A;

/// How many bytes stand before and after a lent byte buffer: an odd number, so that its address is one too.
const BEFORE: usize = 5;

/// Bytes that no call should leave changed, another at each of 256 places.
pub fn byte(place: usize) -> u8 {
    (place as u8).wrapping_mul(29) ^ 0xA5
}

/// A byte buffer beforehand.
pub fn bytes(len: usize) -> Vec<u8> {
    (0..len).map(byte).collect()
}

/// Compares a guarded byte buffer with what it should hold; the guards must stay.
fn compare_bytes(buffer: &[u8], right: &[u8]) -> Option<String> {
    (0..buffer.len()).find_map(|place| {
        let owed = place.checked_sub(BEFORE).and_then(|at| right.get(at)).copied().unwrap_or(byte(place));
        (buffer[place] != owed).then(|| format!("byte {} is {:02X}, not {owed:02X}", place as isize - BEFORE as isize, buffer[place]))
    })
}

/// Compares what was told of a layout: the sizes, n and m of an accepted record, or what stood there before.
fn compare_laid(number: u32, record: &expected::Record, got: ([u8; 16], usize, usize)) -> Option<String> {
    let accepted = || (std::array::from_fn(|ink| record[48 + ink] as u8), record[64] as usize, record[65] as usize);
    let owed = if number == 0 { accepted() } else { (SIZES, COUNT, COUNT) };
    (got != owed).then(|| format!("sizes, n and m are {got:X?}, not {owed:X?}"))
}

/// A file's words that are not 0.
fn words(file: &[u8]) -> String {
    let list = file.chunks(4).enumerate().filter(|(_, word)| word.iter().any(|&byte| byte != 0)).take(400);
    let hex = |word: &[u8]| word.iter().map(|byte| format!("{byte:02X}")).collect::<String>();
    let told: Vec<String> = list.map(|(i, word)| format!("[{}] {}", 4 * i, hex(word))).collect();
    format!("{} bytes, those of words that are not 0 (at most 400): {}", file.len(), told.join(", "))
}

#[derive(Clone)]
pub struct Write<'a> {
    pub sizes: [u8; 16],
    pub n: usize,
    pub m: usize,
    pub table: Cow<'a, [f32]>,
    /// The length of the byte buffer.
    pub room: usize,
}

impl Write<'_> {
    /// The length of the file, which is asked of every layout.
    fn length_difference(&self) -> Option<String> {
        let (mut length, number) = (COUNT as u64, expected::layout(&self.sizes, self.n, self.m));
        let got = library::file_length(&self.sizes, self.n, self.m, &mut length);
        let owed = if number == 0 { files::length(expected::total(&self.sizes[..self.n], self.m)) as u64 } else { COUNT as u64 };
        let differ = got != number || length != owed;
        differ.then(|| format!("file_length's number is {got} and its length {length}, not {number} and {owed}"))
    }

    /// What was written reads back to the same bits.
    fn read_back(&self, file: &[u8]) -> Option<String> {
        let total = expected::total(&self.sizes[..self.n], self.m) as usize;
        let (mut sizes, mut n, mut m, mut buffer) = (SIZES, COUNT, COUNT, guarded(total));
        let number = library::read_table(file, &mut sizes, &mut n, &mut m, &mut buffer[GUARD..GUARD + total]);
        if number != 0 {
            return Some(format!("what was written is refused with {number}"));
        }
        let record = expected::record(&self.sizes, self.n, self.m);
        let told = compare_laid(0, &record, (sizes, n, m)).or_else(|| compare_bits(&buffer, &self.table[..total]));
        told.map(|told| format!("read back: {told}"))
    }
}

impl Case for Write<'_> {
    fn number(&self) -> u32 {
        files::write_number(&self.sizes, self.n, self.m, self.table.len(), self.room)
    }

    fn unequal(&self) -> Option<Sort> {
        are_unequal(&self.sizes, self.n).then_some(Sort::File)
    }

    fn filed(&self) -> Option<Filed> {
        let number = self.number();
        let accepted = if number == 0 { expected::total(&self.sizes[..self.n], self.m) as usize } else { 0 };
        Some(Filed { reading: false, number, later: false, nans: nans(&self.table[..accepted]) })
    }

    fn difference(&self) -> Option<String> {
        let (room, mut buffer) = (self.room, bytes(self.room + 2 * BEFORE));
        let old = buffer[BEFORE..BEFORE + room].to_vec();
        let got = library::write_table(&self.sizes, self.n, self.m, &self.table, &mut buffer[BEFORE..BEFORE + room]);
        let right = files::write(&self.sizes, self.n, self.m, &self.table, &old);
        if got != right.number {
            return Some(format!("the number is {got}, not {}", right.number));
        }
        let length = || files::length(expected::total(&self.sizes[..self.n], self.m)) as usize;
        let back = || (got == 0).then(|| self.read_back(&buffer[BEFORE..BEFORE + length()])).flatten();
        compare_bytes(&buffer, &right.file).or_else(|| self.length_difference()).or_else(back)
    }

    fn smaller(&self, take: &mut dyn FnMut(Self) -> bool) {
        for part in [2, 4, 16, 64, usize::MAX] {
            let (entries, room) = (self.table.len(), self.room);
            let of_table = |length: usize| Write { table: self.table[..length].to_vec().into(), ..self.clone() };
            let of_room = |room: usize| Write { room, ..self.clone() };
            if entries > 0 && take(of_table(entries - (entries / part).max(1))) || room > 0 && take(of_room(room - (room / part).max(1))) {
                return;
            }
        }
        if self.sizes.iter().any(|&size| size > 1) && take(Write { sizes: self.sizes.map(|size| size.saturating_sub(1)), ..self.clone() }) {
            return;
        }
        for place in (0..self.table.len()).filter(|&place| self.table[place].to_bits() != 0) {
            let mut call = self.clone();
            call.table.to_mut()[place] = 0.0;
            if take(call) {
                return;
            }
        }
    }

    fn shown(&self) -> String {
        let Write { sizes, n, m, table, room } = self;
        format!("write_table: sizes {sizes:?}, n {n}, m {m}, a buffer of {room} bytes\n  table of {}", numbers(table))
    }
}

#[derive(Clone)]
pub struct Read<'a> {
    pub file: Cow<'a, [u8]>,
    /// The length of the entry buffer.
    pub room: usize,
}

impl Read<'_> {
    /// The layout of the file, which is asked of every file.
    fn layout_difference(&self) -> Option<String> {
        let (mut sizes, mut n, mut m, number) = (SIZES, COUNT, COUNT, files::layout_number(&self.file));
        let got = library::file_layout(&self.file, &mut sizes, &mut n, &mut m);
        if got != number {
            return Some(format!("file_layout's number is {got}, not {number}"));
        }
        compare_laid(number, &files::record(&self.file), (sizes, n, m)).map(|told| format!("file_layout: {told}"))
    }

    /// What was read writes back to the same bytes.
    fn write_back(&self, sizes: &[u8; 16], n: usize, m: usize, entries: &[f32]) -> Option<String> {
        let (len, mut buffer) = (self.file.len(), bytes(self.file.len() + 2 * BEFORE));
        let number = library::write_table(sizes, n, m, entries, &mut buffer[BEFORE..BEFORE + len]);
        if number != 0 {
            return Some(format!("what was read is refused with {number}"));
        }
        compare_bytes(&buffer, &self.file).map(|told| format!("written back: {told}"))
    }
}

impl Case for Read<'_> {
    fn number(&self) -> u32 {
        files::found(&self.file, self.room).0
    }

    fn unequal(&self) -> Option<Sort> {
        (self.file.len() > 22 && are_unequal(&self.file[6..22], self.file[4].into())).then_some(Sort::File)
    }

    fn filed(&self) -> Option<Filed> {
        let (number, block) = files::found(&self.file, self.room);
        let accepted = if number == 0 { files::entries(&self.file) } else { Vec::new() };
        Some(Filed { reading: true, number, later: block > 0, nans: nans(&accepted) })
    }

    fn difference(&self) -> Option<String> {
        let (room, mut buffer, mut sizes, mut n, mut m) = (self.room, guarded(self.room), SIZES, COUNT, COUNT);
        let got = library::read_table(&self.file, &mut sizes, &mut n, &mut m, &mut buffer[GUARD..GUARD + room]);
        let old: Vec<f32> = (GUARD..GUARD + room).map(sentinel).collect();
        let right = files::read(&self.file, &old);
        if got != right.number {
            return Some(format!("the number is {got}, not {} (of block {})", right.number, right.block));
        }
        let back = || (got == 0).then(|| self.write_back(&sizes, n, m, &buffer[GUARD..GUARD + room])).flatten();
        let laid = compare_laid(got, &right.record, (sizes, n, m));
        laid.or_else(|| compare_bits(&buffer, &right.entries)).or_else(|| self.layout_difference()).or_else(back)
    }

    fn smaller(&self, take: &mut dyn FnMut(Self) -> bool) {
        for less in [512, 1].into_iter().filter(|&less| less <= self.file.len()) {
            if take(Read { file: self.file[..self.file.len() - less].to_vec().into(), room: self.room }) {
                return;
            }
        }
        if self.room > 0 && take(Read { room: self.room / 2, ..self.clone() }) {
            return;
        }
        // A byte less, with its block's check put right.
        for place in (0..self.file.len()).filter(|&place| self.file[place] != 0 && place % 512 < 508) {
            let mut file = self.file.to_vec();
            file[place] = 0;
            put_right(&mut file, place / 512);
            if take(Read { file: file.into(), room: self.room }) {
                return;
            }
        }
    }

    fn shown(&self) -> String {
        format!("read_table: a buffer of {} entries, file of {}", self.room, words(&self.file))
    }
}

/// Puts the check of a block right, where the file has the whole block.
pub fn put_right(file: &mut [u8], block: usize) {
    if let Some(block) = file.get_mut(512 * block..512 * block + 512) {
        let check = files::check(block);
        block[files::CHECKED..].copy_from_slice(&check.to_be_bytes());
    }
}
