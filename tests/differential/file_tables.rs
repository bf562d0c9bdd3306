//! The table files that are written and read whole: totals around the blocks' ends, entries of every kind, every limit of a call, lookups.

use crate::case::{compare, numbers, sentinel, Case, Run};
use crate::engines;
use crate::files::{Read, Write};
use crate::grids::{equal, grid, laid, Sizes};
use crate::layouts::LIMITS;
use crate::library;
use crate::limits::COUNTS;
use crate::values::{random_nan, random_numbers, Rng, ENTRIES};
use oracle::{expected, files};

pub fn all(run: &mut Run, rng: &mut Rng, long: bool) {
    let times = if long { 8 } else { 1 };
    totals(run, rng, times);
    limits(run, rng);
    run.kind("table files written, random layouts, tables and buffers");
    (0..times * 120_000).for_each(|_| run.hold(written(rng)));
    run.kind("table files read, random layouts and tables");
    (0..times * 120_000).for_each(|_| run.hold(read(rng)));
    run.kind("lookups in tables that were written and read");
    (0..times * 4_000).for_each(|_| run.hold(looked_up(rng)));
}

/// An entry of any kind: NaN of either sort and sign with any payload, zeros, subnormals, infinities, anything.
pub fn entry(rng: &mut Rng) -> f32 {
    match rng.below(8) {
        0 | 1 => random_nan(rng),
        2 => f32::from_bits(rng.pick(&ENTRIES)),
        3 => f32::from_bits(rng.next() as u32 & 0x807F_FFFF),
        4 => rng.pick(&[0.0, -0.0, f32::INFINITY, f32::NEG_INFINITY]),
        _ => rng.bits(),
    }
}

pub fn entries(rng: &mut Rng, len: usize) -> Vec<f32> {
    (0..len).map(|_| entry(rng)).collect()
}

/// Sizes and m with exactly this total, if these many inks can have it: its prime factors, each at any ink or in m.
pub fn with_total(rng: &mut Rng, n: usize, total: usize) -> Option<(Vec<u8>, usize)> {
    let (mut left, mut all) = (total, vec![1; n + 1]);
    for prime in 2..=total {
        while left % prime == 0 {
            left /= prime;
            let most = |place: usize| if place == n { 15 } else { 255 };
            let room: Vec<usize> = (0..=n).filter(|&place| all[place] * prime <= most(place)).collect();
            let place = if room.is_empty() { return None } else { rng.pick(&room) };
            all[place] *= prime;
        }
    }
    let m = all.pop()?;
    Some((all.into_iter().map(|size| size as u8).collect(), m))
}

/// A file of these sizes with entries of any kind.
pub fn file(rng: &mut Rng, sizes: &[u8], m: usize) -> Vec<u8> {
    files::file(sizes, m, &entries(rng, expected::total(sizes, m) as usize))
}

/// A layout of a small table: of a total at the end of a block, of any total, or of any sizes.
pub fn small(rng: &mut Rng) -> (Vec<u8>, usize) {
    let total = match rng.below(3) {
        0 => rng.pick(&[125, 126, 127, 251, 252, 253, 377, 378, 379]),
        1 => rng.within(1, 400),
        _ => return grid(rng, 300, Sizes::Unequal),
    };
    let n = rng.within(1, 15);
    with_total(rng, n, total).unwrap_or_else(|| (vec![rng.within(1, 255) as u8], 1))
}

/// Every total that has a layout: every length of filling, from 0 to 125, and every end of a block.
fn totals(run: &mut Run, rng: &mut Rng, times: usize) {
    run.kind("table files of every total up to 1,300 that has a layout, each written and read, with several counts of inks");
    let mut fillings = [0; 126];
    for total in (1..=1_300).flat_map(|total| vec![total; times * if [0, 1, 125].contains(&(total % 126)) { 40 } else { 4 }]) {
        let n = rng.within(1, 15);
        let Some((used, m)) = with_total(rng, n, total) else { continue };
        let (table, more) = (entries(rng, total), rng.pick(&[0, 0, 1, 512]));
        let file = files::file(&used, m, &table);
        run.hold(Write { sizes: laid(rng, &used), n, m, table: table.into(), room: file.len() + more });
        run.hold(Read { file: file.into(), room: total + more });
        fillings[(126 - total % 126) % 126] += 1;
    }
    assert!(fillings.iter().all(|&count| count > 0), "a length of filling was not met: {fillings:?}");
}

/// One thing about a write that is set to something else.
#[derive(Clone, Copy)]
enum Change {
    Inks(usize),
    Outputs(usize),
    Size(usize, u8),
    Entries(usize),
    Room(usize),
}

fn changed(rng: &mut Rng, call: &mut Write, change: Change) {
    match change {
        Change::Inks(n) => call.n = n,
        Change::Outputs(m) => call.m = m,
        Change::Size(place, size) => call.sizes[place] = size,
        Change::Entries(length) => call.table.to_mut().resize_with(length, || entry(rng)),
        Change::Room(room) => call.room = room,
    }
}

/// What stands at or around a limit of a write.
fn changes(used: &[u8], m: usize) -> Vec<Change> {
    let (n, total) = (used.len(), expected::total(used, m));
    let (total, length) = (total as usize, files::length(total) as usize);
    let mut list: Vec<Change> = COUNTS.iter().copied().chain([1, n - 1, n + 1, 15]).map(Change::Inks).collect();
    list.extend(COUNTS.iter().copied().chain([1, m - 1, m + 1, 15]).map(Change::Outputs));
    for place in [0, n - 1, n.min(15), 15] {
        list.extend([0, 1, used[place.min(n - 1)] ^ 1, 255].map(|size| Change::Size(place, size)));
    }
    list.extend([0, total - 1, total, total + 1, total + 200].map(Change::Entries));
    list.extend([0, 511, 512, 513, length - 512, length - 1, length, length + 1, length + 511, length + 512].map(Change::Room));
    list
}

fn limits(run: &mut Run, rng: &mut Rng) {
    run.kind("table files written around every limit, every pair of them");
    let mut grids = vec![(vec![2, 3], 1), (vec![7, 3, 3], 2), (vec![127], 1), (equal(1, 15), 15), (equal(2, 8), 1), (vec![2, 1, 63], 2)];
    grids.extend([(vec![255], 1), (vec![1], 1)]);
    for (sizes, m) in grids {
        let (total, list) = (expected::total(&sizes, m), changes(&sizes, m));
        let (table, length) = (entries(rng, total as usize), files::length(total));
        for (&first, &second) in list.iter().flat_map(|first| list.iter().map(move |second| (first, second))) {
            let mut call = Write { sizes: laid(rng, &sizes), n: sizes.len(), m, table: (&table).into(), room: length as usize };
            changed(rng, &mut call, first);
            changed(rng, &mut call, second);
            run.hold(call);
        }
    }
    run.kind("table files refused for their layout, table or buffer, with totals at 4,294,967,295 and above");
    for ((used, m), room) in LIMITS.iter().flat_map(|limit| [0, 512, 4_096].map(|room| (*limit, room))) {
        let (table, n) = (entries(rng, 300), used.len());
        run.hold(Write { sizes: laid(rng, used), n, m, table: table.into(), room });
        let mut file = files::file(used, m, &[]);
        file.resize(512 + room, 0);
        run.hold(Read { file: file.into(), room: 0 });
    }
}

/// A random write: a table and a buffer at, one below or above what is needed, or longer.
fn written(rng: &mut Rng) -> Write<'static> {
    let (used, m) = small(rng);
    let (total, near) = (expected::total(&used, m), [0, 1, 1, 1, 1, 1, 1, 2, 9, 700]);
    let (length, room) = (total as usize + rng.pick(&near) - 1, files::length(total) as usize + rng.pick(&near) - 1);
    let mut call = Write { sizes: laid(rng, &used), n: used.len(), m, table: entries(rng, length).into(), room };
    match rng.below(24) {
        0 => call.n = rng.below(18),
        1 => call.m = rng.below(18),
        2 => call.sizes[rng.below(16)] = rng.pick(&[0, 1, 2, 255]),
        _ => {}
    }
    call
}

/// A random read of a whole file, some with a buffer that is too short.
fn read(rng: &mut Rng) -> Read<'static> {
    let (used, m) = small(rng);
    let room = expected::total(&used, m) as usize + rng.pick(&[0, 1, 1, 1, 1, 1, 1, 2, 9]) - 1;
    Read { file: file(rng, &used, m).into(), room }
}

/// A lookup by the library in the table that it wrote and read, against the oracle's in the table as it was.
#[derive(Clone)]
struct FiledLookup {
    used: Vec<u8>,
    m: usize,
    table: Vec<f32>,
    inputs: Vec<f32>,
}

fn looked_up(rng: &mut Rng) -> FiledLookup {
    let (used, m) = small(rng);
    let mut inputs = vec![0.0; used.len()];
    random_numbers(rng, &used, &mut inputs);
    let total = expected::total(&used, m) as usize;
    let table = if rng.one_in(2) { entries(rng, total) } else { (0..total).map(|_| rng.unit()).collect() };
    FiledLookup { used, m, table, inputs }
}

impl Case for FiledLookup {
    fn number(&self) -> u32 {
        0
    }

    fn difference(&self) -> Option<String> {
        let FiledLookup { used, m, table, inputs } = self;
        let mut file = vec![0; files::length(table.len() as u128) as usize];
        let given = std::array::from_fn(|ink| used.get(ink).copied().unwrap_or(0));
        let written = library::write_table(&given, used.len(), *m, table, &mut file);
        let (mut sizes, mut n, mut outputs, mut entries) = ([0; 16], 0, 0, (0..table.len()).map(sentinel).collect::<Vec<f32>>());
        let read = library::read_table(&file, &mut sizes, &mut n, &mut outputs, &mut entries);
        if (written, read) != (0, 0) {
            return Some(format!("the numbers of writing and reading are {written} and {read}"));
        }
        let answer = engines::lookup(&sizes, n, outputs, &entries, inputs, *m);
        if answer.number != 0 {
            return Some(format!("the lookup's number is {}, not 0", answer.number));
        }
        compare(&answer.buffer, &oracle::lookup(used, *m, table, inputs)).or(answer.apart)
    }

    fn smaller(&self, _: &mut dyn FnMut(Self) -> bool) {}

    fn shown(&self) -> String {
        let FiledLookup { used, m, table, inputs } = self;
        format!("written, read and looked up in: sizes {used:?}, m {m}, table of {}, at {}", numbers(table), numbers(inputs))
    }
}
