//! Values without a header: reading them as a compared call, and the calls that are compared: every value, every count at every alignment,
//! every choice of limits, random and damaged calls.

use crate::case::{compare_bits, numbers, sentinel, Case, Run, GUARD};
use crate::library;
use crate::values::{any_bits, Rng};
use oracle::units;

#[derive(Clone)]
struct Units {
    data: Vec<u8>,
    precision: usize,
    count: usize,
    /// The entry buffer beforehand.
    old: Vec<f32>,
    /// How many bytes the data, and how many entries the buffer, stand after an address that 64 divides.
    shifts: (usize, usize),
}

impl Units {
    /// A call that reads all of the data into a buffer of exactly so many entries.
    fn good(precision: usize, data: &[u8]) -> Units {
        let count = data.len() / precision;
        Units { data: data.to_vec(), precision, count, old: (0..count).map(sentinel).collect(), shifts: (0, 0) }
    }
}

/// The place, at or after `from`, that stands so many items after an address that 64 divides.
fn shifted<T>(room: &[T], from: usize, shift: usize) -> usize {
    from + room[from..].as_ptr().align_offset(64) + shift
}

impl Case for Units {
    fn number(&self) -> u32 {
        units::number(self.data.len(), self.precision, self.count, self.old.len())
    }

    fn difference(&self) -> Option<String> {
        let (bytes, len) = (self.data.len(), self.old.len());
        // Around the data stand bytes that are no 0, around the buffer sentinels.
        let mut lent = vec![0xC3; bytes + 64 + self.shifts.0];
        let first = shifted(&lent, 0, self.shifts.0);
        lent[first..][..bytes].copy_from_slice(&self.data);
        let mut room = vec![0.0; len + 2 * GUARD + 16 + self.shifts.1];
        let start = shifted(&room, GUARD, self.shifts.1);
        let buffer = &mut room[start - GUARD..start + len + GUARD];
        buffer.iter_mut().enumerate().for_each(|(place, entry)| *entry = sentinel(place));
        buffer[GUARD..GUARD + len].copy_from_slice(&self.old);
        let got = library::read_units(&lent[first..][..bytes], self.precision, self.count, &mut buffer[GUARD..GUARD + len]);
        let right = units::read(&self.data, self.precision, self.count, &self.old);
        if got != right.number {
            return Some(format!("the number is {got}, not {}", right.number));
        }
        compare_bits(buffer, &right.entries)
    }

    fn smaller(&self, take: &mut dyn FnMut(Self) -> bool) {
        for part in [2, 4, 16, 64, usize::MAX] {
            let less = |length: usize| length - (length / part).max(1);
            let (bytes, places) = (self.data.len(), self.old.len());
            if bytes > 0 && take(Units { data: self.data[..less(bytes)].to_vec(), ..self.clone() })
                || places > 0 && take(Units { old: self.old[..less(places)].to_vec(), ..self.clone() })
                || self.count > 0 && take(Units { count: less(self.count), ..self.clone() })
            {
                return;
            }
        }
        if self.shifts != (0, 0) && take(Units { shifts: (0, 0), ..self.clone() }) {
            return;
        }
        for place in (0..self.data.len()).filter(|&place| self.data[place] != 0) {
            let mut call = self.clone();
            call.data[place] = 0;
            if take(call) {
                return;
            }
        }
    }

    fn shown(&self) -> String {
        let Units { data, precision, count, old, shifts: (byte, entry) } = self;
        let (told, more) = (&data[..data.len().min(256)], if data.len() > 256 { " and more" } else { "" });
        let head = format!("read_units: {} bytes, {byte} after a multiple of 64: {told:02X?}{more}", data.len());
        let buffer = format!("buffer, {entry} entries after a multiple of 64, of {}", numbers(old));
        format!("{head}\n  precision {precision}, count {count}\n  {buffer}")
    }
}

pub fn all(run: &mut Run, rng: &mut Rng, long: bool) {
    let times = if long { 8 } else { 1 };
    values(run);
    counts(run, rng);
    limits(run, rng);
    run.kind("units, random precisions, counts, lengths and alignments");
    (0..times * 200_000).for_each(|_| run.hold(random(rng)));
    run.kind("units, damaged copies of good calls");
    (0..times * 100_000).for_each(|_| run.hold(damaged(rng)));
}

/// Each value alone, then all of one width in one call, sixteen times, so that each stands at every place of sixteen.
fn values(run: &mut Run) {
    run.kind("units of every value of one byte and of two, alone and in one call");
    let (one, two): (Vec<u8>, Vec<u8>) = ((0..=255).collect(), (0..=65_535u16).flat_map(u16::to_be_bytes).collect());
    for (precision, mut data) in [(1, one), (2, two)] {
        for value in data.chunks(precision) {
            run.hold(Units::good(precision, value));
        }
        for _ in 0..16 {
            run.hold(Units::good(precision, &data));
            data.rotate_left(precision);
        }
    }
}

fn bytes(rng: &mut Rng, len: usize) -> Vec<u8> {
    (0..len).map(|_| rng.next() as u8).collect()
}

/// Data and buffer longer than needed, exactly as long, and one shorter, at every alignment up to eight; then larger counts.
fn counts(run: &mut Run, rng: &mut Rng) {
    run.kind("units of every count 0 to 70, every alignment, data and buffer one short, exact and longer");
    let (data, entries) = (bytes(rng, 2 * 70 + 3), any_bits(rng, 70 + 5));
    for (count, precision) in (0..=70usize).flat_map(|count| [(count, 1), (count, 2)]) {
        let needed = precision * count;
        let lengths = [needed.saturating_sub(1), needed, needed + 3];
        let rooms = [count.saturating_sub(1), count, count + 5];
        for (length, room) in lengths.into_iter().flat_map(|length| rooms.map(|room| (length, room))) {
            for shifts in (0..8).flat_map(|byte| (0..8).map(move |entry| (byte, entry))) {
                run.hold(Units { data: data[..length].to_vec(), precision, count, old: entries[..room].to_vec(), shifts });
            }
        }
    }
    run.kind("units of 71 to 65,537 values");
    for count in (71..=600).chain((10..=16).flat_map(|power| [(1 << power) - 1, 1 << power, (1 << power) + 1])) {
        run.hold(accepted(rng, 1, count));
        run.hold(accepted(rng, 2, count));
    }
}

/// Precisions that are neither 1 nor 2, or would be if they were cut to fewer bits.
const PRECISIONS: [usize; 18] = [
    0, 3, 4, 255, 256, 257, 258, (1 << 16) + 1, (1 << 16) + 2, (1 << 31) + 1, 1 << 32, (1 << 32) + 1, (1 << 32) + 2, 1 << 63, (1 << 63) + 1,
    (1 << 63) + 2, usize::MAX - 1, usize::MAX,
];

/// Counts that are too large, and would not be if they, or twice their number, were cut to fewer bits: `small` would be left.
fn large_counts(small: usize) -> Vec<usize> {
    let powers = [8, 16, 31, 32, 33, 62, 63].map(|power| 1usize << power);
    let around = powers.into_iter().flat_map(|power| [power - 1, power, power + 1, power + small, power + power / 2 + small]);
    around.chain([usize::MAX - 1, usize::MAX, usize::MAX - small, usize::MAX / 2 - small]).collect()
}

/// Every choice of a precision, a count, a length and a buffer at or around a limit: the order of the refusals shows.
fn limits(run: &mut Run, rng: &mut Rng) {
    run.kind("units around every limit, every choice of them");
    for count in [0, 1, 2, 3, 9, 16] {
        let (data, entries) = (bytes(rng, 4 * count + 2), any_bits(rng, 2 * count + 2));
        let around = |exact: usize| [exact.saturating_sub(1), exact, exact + 1];
        let mut lengths = [[0, 1, 2], around(count), around(2 * count), [0, 0, 4 * count + 2]].concat();
        let mut rooms = [[0, 1, 2], around(count), [0, 0, 2 * count + 2]].concat();
        let mut asked = [&[0, 1, 2 * count], &around(count)[..], &large_counts(count)].concat();
        for list in [&mut lengths, &mut rooms, &mut asked] {
            list.sort_unstable();
            list.dedup();
        }
        for (&length, &room) in lengths.iter().flat_map(|length| rooms.iter().map(move |room| (length, room))) {
            for (&precision, &count) in PRECISIONS.iter().chain(&[1, 2]).flat_map(|p| asked.iter().map(move |count| (p, count))) {
                run.hold(Units { data: data[..length].to_vec(), precision, count, old: entries[..room].to_vec(), shifts: (0, 0) });
            }
        }
    }
}

/// A call that is accepted: old contents, bytes after the data, longer buffers and alignments are anything.
fn accepted(rng: &mut Rng, precision: usize, count: usize) -> Units {
    let mut more = |most: usize| if rng.one_in(2) { rng.below(most) } else { 0 };
    let (after, longer) = (more(9), more(12));
    let data = bytes(rng, precision * count + after);
    Units { data, precision, count, old: any_bits(rng, count + longer), shifts: (rng.below(64), rng.below(16)) }
}

fn good(rng: &mut Rng) -> Units {
    let (precision, most) = (rng.within(1, 2), rng.pick(&[4, 20, 40, 40, 100, 300]));
    let count = rng.below(most);
    accepted(rng, precision, count)
}

/// A length and a buffer at, one below or one above what is needed by one width or the other; some with any precision, some with any count.
fn random(rng: &mut Rng) -> Units {
    let mut call = good(rng);
    let near = |rng: &mut Rng, exact: usize| (exact + rng.pick(&[0, 1, 1, 1, 2])).saturating_sub(1);
    let width = rng.pick(&[1, 2, call.precision, call.precision]);
    let (length, room) = (near(rng, width * call.count), near(rng, call.count));
    call.data = bytes(rng, length);
    call.old = any_bits(rng, room);
    if rng.one_in(12) {
        call.precision = if rng.one_in(2) { rng.pick(&PRECISIONS) } else { rng.below(5) };
    }
    if rng.one_in(12) {
        call.count = if rng.one_in(2) { rng.pick(&large_counts(call.count)) } else { rng.below(400) };
    }
    call
}

fn damaged(rng: &mut Rng) -> Units {
    let mut call = good(rng);
    for _ in 0..rng.within(1, 3) {
        match rng.below(6) {
            0 => call.data.truncate(rng.below(call.data.len() + 1)),
            1 => call.data.truncate(call.data.len().saturating_sub(rng.within(1, 9))),
            2 => call.old.truncate(call.old.len().saturating_sub(rng.within(1, 12))),
            3 => call.precision ^= 1 << rng.pick(&[0, 0, 1, 1, 2, 8, 16, 32, 63]),
            4 => call.count ^= 1 << rng.pick(&[0, 1, 2, 3, 8, 16, 31, 32, 62, 63]),
            _ => (call.precision, call.count) = (call.count, call.precision),
        }
    }
    call
}
