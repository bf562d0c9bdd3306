//! The CLUT elements that are compared: every value, every pair of limits, random and damaged ones, lookups in what was read.

use crate::case::{sentinel, Run};
use crate::cluts::{Clut, ReadLookup};
use crate::grids::{equal, grid, laid, Sizes};
use crate::limits::COUNTS;
use crate::values::{any_bits, random_numbers, Rng};
use oracle::expected;

pub fn all(run: &mut Run, rng: &mut Rng, long: bool) {
    let times = if long { 8 } else { 1 };
    values(run);
    limits(run, rng);
    run.kind("CLUTs, random sizes, counts, precisions and lengths");
    (0..times * 130_000).for_each(|_| run.hold(random(rng, Sizes::Equal)));
    run.kind("CLUTs with unequal sizes, random counts, precisions and lengths");
    (0..times * 130_000).for_each(|_| run.hold(random(rng, Sizes::Unequal)));
    run.kind("CLUTs, damaged copies of good ones");
    (0..times * 80_000).for_each(|_| run.hold(damaged(rng, Sizes::Equal)));
    run.kind("CLUTs with unequal sizes, damaged copies of good ones");
    (0..times * 80_000).for_each(|_| run.hold(damaged(rng, Sizes::Unequal)));
    run.kind("lookups in tables that were read from a CLUT");
    (0..times * 10_000).for_each(|_| run.hold(read_lookup(rng, Sizes::Equal)));
    run.kind("lookups in tables that were read from a CLUT with unequal sizes");
    (0..times * 10_000).for_each(|_| run.hold(read_lookup(rng, Sizes::Unequal)));
}

/// Each value alone, then all of one width in one element, so that each stands at many places.
fn values(run: &mut Run) {
    run.kind("CLUTs of every value of one byte and of two");
    let (one, two): (Vec<u8>, Vec<u8>) = ((0..=255).collect(), (0..=65_535u16).flat_map(u16::to_be_bytes).collect());
    for (precision, g, n, data) in [(1, 16, 2, one), (2, 16, 4, two)] {
        for value in data.chunks(precision as usize) {
            run.hold(Clut::good(&[1], 1, precision, value));
        }
        run.hold(Clut::good(&equal(g, n), 1, precision, &data));
    }
}

/// One thing about a call that is set to something else.
#[derive(Clone, Copy)]
enum Change {
    Length(usize),
    Inks(usize),
    Outputs(usize),
    Byte(usize, u8),
    Room(usize),
}

fn changed(rng: &mut Rng, call: &mut Clut, change: Change) {
    match change {
        Change::Length(length) => call.element.resize_with(length, || rng.next() as u8),
        Change::Inks(n) => call.n = n,
        Change::Outputs(m) => call.m = m,
        Change::Byte(place, value) => call.element.iter_mut().skip(place).take(1).for_each(|byte| *byte = value),
        Change::Room(room) => call.old = (0..room).map(sentinel).collect(),
    }
}

/// What stands at or around a limit of a layout's call.
fn changes(used: &[u8], m: usize) -> Vec<Change> {
    let (n, total) = (used.len(), expected::total(used, m) as usize);
    let mut list: Vec<Change> = [0, 1, 15, 16, 17, 19, 20, 21].map(Change::Length).into();
    for needed in [20 + total, 20 + 2 * total] {
        list.extend([needed - 1, needed, needed + 1].map(Change::Length));
    }
    list.extend(COUNTS.iter().copied().chain([1, n - 1, n, n + 1, 15]).map(Change::Inks));
    list.extend(COUNTS.iter().copied().chain([1, m - 1, m, m + 1, 15]).map(Change::Outputs));
    list.extend([0, 1, 2, 3, 4, 128, 255].map(|precision| Change::Byte(16, precision)));
    list.extend([17, 18, 19].map(|padding| Change::Byte(padding, 0)));
    for place in [0, n - 1, n.min(15), 15] {
        list.extend([0, 1, used[place.min(n - 1)] ^ 1, 255].map(|size| Change::Byte(place, size)));
    }
    list.extend([0, total - 1, total, total + 1, 2 * total].map(Change::Room));
    list
}

fn limits(run: &mut Run, rng: &mut Rng) {
    run.kind("CLUTs around every limit, every pair of them");
    for (g, n, m) in [(1, 1, 1), (1, 15, 15), (2, 1, 1), (2, 2, 3), (3, 3, 4), (2, 8, 1)] {
        pairs(run, rng, &equal(g, n), m);
    }
    run.kind("CLUTs with unequal sizes around every limit, every pair of them");
    let grids: [(&[u8], usize); 4] = [(&[2, 3], 1), (&[3, 2], 3), (&[5, 1, 2], 2), (&[1, 2, 1, 3, 1, 2, 2], 1)];
    for (sizes, m) in grids {
        pairs(run, rng, sizes, m);
    }
}

fn pairs(run: &mut Run, rng: &mut Rng, sizes: &[u8], m: usize) {
    let list = changes(sizes, m);
    for precision in [1, 2] {
        let data: Vec<u8> = (0..precision as u128 * expected::total(sizes, m)).map(|_| rng.next() as u8).collect();
        for (&first, &second) in list.iter().flat_map(|first| list.iter().map(move |second| (first, second))) {
            let mut call = Clut::good(sizes, m, precision, &data);
            changed(rng, &mut call, first);
            changed(rng, &mut call, second);
            run.hold(call);
        }
    }
}

/// Bounds of the entries of small elements.
const SMALL: [u128; 5] = [10, 30, 100, 100, 300];

/// A random accepted call: sizes that do not count, padding, old contents, bytes after the data and longer buffers are anything.
fn good(rng: &mut Rng, bounds: &[u128], sizes: Sizes) -> Clut {
    let bound = rng.pick(bounds);
    let (used, m) = grid(rng, bound, sizes);
    let (precision, total) = (rng.within(1, 2), expected::total(&used, m) as usize);
    let after = if rng.one_in(2) { rng.below(9) } else { 0 };
    let mut element: Vec<u8> = (0..20 + precision * total + after).map(|_| rng.next() as u8).collect();
    element[..16].copy_from_slice(&laid(rng, &used));
    element[16] = precision as u8;
    let longer = if rng.one_in(2) { rng.below(12) } else { 0 };
    Clut { element, n: used.len(), m, old: any_bits(rng, total + longer) }
}

fn damaged(rng: &mut Rng, sizes: Sizes) -> Clut {
    let mut call = good(rng, &SMALL, sizes);
    for _ in 0..rng.within(1, 3) {
        damage(rng, &mut call);
    }
    call
}

fn read_lookup(rng: &mut Rng, sizes: Sizes) -> ReadLookup {
    let clut = good(rng, &[30, 300, 1_000, 4_000], sizes);
    let mut inputs = vec![0.0; clut.n];
    random_numbers(rng, &clut.element[..clut.n], &mut inputs);
    ReadLookup { clut, inputs }
}

/// Any sizes with any counts; a length and a buffer at, one below or one above what is needed, where that is not too much.
fn random(rng: &mut Rng, sizes: Sizes) -> Clut {
    let mut call = good(rng, &SMALL, sizes);
    if rng.one_in(3) {
        call.n = rng.below(18);
    }
    if rng.one_in(3) {
        call.m = rng.below(18);
    }
    if rng.one_in(8) {
        call.element[rng.below(16)] = rng.pick(&[0, 1, 2, 3, 255]);
    }
    if rng.one_in(6) {
        call.element[16] = if rng.one_in(2) { rng.below(5) as u8 } else { rng.next() as u8 };
    }
    let total = expected::total(&call.element[..call.n.min(15)], call.m.min(15)).min(2_000) as usize;
    let near = |rng: &mut Rng, exact: usize| (exact + rng.pick(&[0, 1, 1, 1, 2])).saturating_sub(1);
    let width = rng.pick(&[1, 2, call.element[16].min(2) as usize]);
    let length = near(rng, 20 + total * width);
    changed(rng, &mut call, Change::Length(length));
    let room = near(rng, total) + if rng.one_in(3) { rng.below(20) } else { 0 };
    call.old = any_bits(rng, room);
    call
}

fn damage(rng: &mut Rng, call: &mut Clut) {
    let length = call.element.len();
    match rng.below(8) {
        0 | 1 if length > 0 => call.element[rng.below(length)] = rng.next() as u8,
        2 => call.element.iter_mut().skip(rng.below(17)).take(1).for_each(|byte| *byte ^= 1 << rng.below(8)),
        3 => call.element.truncate(rng.below(length + 1)),
        4 => call.element.truncate(length.saturating_sub(rng.within(1, 9))),
        5 => (call.n, call.m) = (call.m, call.n),
        6 => call.old.truncate(call.old.len().saturating_sub(rng.within(1, 12))),
        _ => *(if rng.one_in(2) { &mut call.n } else { &mut call.m }) = rng.pick(&COUNTS),
    }
}
