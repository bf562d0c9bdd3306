//! Slabs: a cut as a compared call, the cuts that are compared, and cuts one after another.

use crate::case::{are_unequal, compare_bits, guarded, numbers, sentinel, Case, Run, Sort, GUARD};
use crate::grids::{equal, grid, laid, orders, padded, Sizes};
use crate::library;
use crate::limits::COUNTS;
use crate::values::{any_bits, Rng};
use oracle::{expected, slab};
use std::borrow::Cow;

#[derive(Clone)]
pub struct Slab<'a> {
    pub sizes: [u8; 16],
    pub n: usize,
    pub m: usize,
    pub table: Cow<'a, [f32]>,
    pub j: usize,
    pub k: usize,
    /// The slab buffer beforehand.
    pub old: Vec<f32>,
}

impl<'a> Slab<'a> {
    /// A call with a buffer of exactly the slab's total, or where ink j is not there of the last ink's; unused sizes are the first one again.
    pub fn good(used: &[u8], m: usize, table: impl Into<Cow<'a, [f32]>>, j: usize, k: usize) -> Slab<'a> {
        let n = used.len();
        let total = expected::total(&slab::without(used, if (1..=n).contains(&j) { j } else { n }), m) as usize;
        Slab { sizes: padded(used), n, m, table: table.into(), j, k, old: (0..total).map(sentinel).collect() }
    }
}

impl Case for Slab<'_> {
    fn number(&self) -> u32 {
        slab::number(&self.sizes, self.n, self.m, self.table.len(), self.j, self.k, self.old.len())
    }

    fn unequal(&self) -> Option<Sort> {
        are_unequal(&self.sizes, self.n).then_some(Sort::Slab)
    }

    fn difference(&self) -> Option<String> {
        let len = self.old.len();
        let mut buffer = guarded(len);
        buffer[GUARD..GUARD + len].copy_from_slice(&self.old);
        let got = library::cut_slab(&self.sizes, self.n, self.m, &self.table, self.j, self.k, &mut buffer[GUARD..GUARD + len]);
        let right = slab::cut(&self.sizes, self.n, self.m, &self.table, self.j, self.k, &self.old);
        if got != right.number {
            return Some(format!("the number is {got}, not {}", right.number));
        }
        compare_bits(&buffer, &right.slab)
    }

    fn smaller(&self, take: &mut dyn FnMut(Self) -> bool) {
        for part in [2, 4, 16, 64, usize::MAX] {
            let (entries, places) = (self.table.len(), self.old.len());
            let of_table = |length: usize| Slab { table: self.table[..length].to_vec().into(), ..self.clone() };
            let of_room = |length: usize| Slab { old: self.old[..length].to_vec(), ..self.clone() };
            if entries > 0 && take(of_table(entries - (entries / part).max(1))) || places > 0 && take(of_room(places - (places / part).max(1))) {
                return;
            }
        }
        let less = |x: usize| x.wrapping_sub(1);
        let Slab { n, m, j, k, .. } = *self;
        for (n, m, j, k) in [(less(n), m, j, k), (n, less(m), j, k), (n, m, less(j), k), (n, m, j, less(k))] {
            if [n, m, j, k].iter().all(|&x| x != usize::MAX) && take(Slab { n, m, j, k, ..self.clone() }) {
                return;
            }
        }
        if self.sizes.iter().any(|&size| size > 1) && take(Slab { sizes: self.sizes.map(|size| size.saturating_sub(1)), ..self.clone() }) {
            return;
        }
        for place in (0..self.table.len()).filter(|&place| self.table[place].to_bits() != 0) {
            let mut call = self.clone();
            call.table.to_mut()[place] = 0.0;
            if take(call) {
                return;
            }
        }
    }

    fn shown(&self) -> String {
        let Slab { sizes, n, m, table, j, k, old } = self;
        format!("cut_slab: sizes {sizes:?}, n {n}, m {m}, j {j}, k {k}\n  table of {}\n  buffer of {}", numbers(table), numbers(old))
    }
}

pub fn all(run: &mut Run, rng: &mut Rng, long: bool) {
    let times = if long { 8 } else { 1 };
    every(run, rng);
    limits(run, rng);
    run.kind("slabs, random inks, lines, counts and lengths");
    (0..times * 300_000).for_each(|_| run.hold(random(rng, Sizes::Equal)));
    run.kind("slabs of tables with unequal sizes, random inks, lines, counts and lengths");
    (0..times * 300_000).for_each(|_| run.hold(random(rng, Sizes::Unequal)));
}

/// Every ink and every line of small grids.
fn every(run: &mut Run, rng: &mut Rng) {
    run.kind("slabs of every ink and line, g 1 to 4, n 1 to 6, m 1 to 3; g 1 to 3, n 7 to 15");
    let small = (1..=4).flat_map(|g| (1..=6).flat_map(move |n| (1..=3).map(move |m| (g, n, m))));
    let many = (7..=15).flat_map(|n| [(1, n, 15), (2, n, 1), (3, n, 1)]).filter(|&(g, n, m)| expected::total(&equal(g, n), m) <= 40_000);
    for (g, n, m) in small.chain(many) {
        every_line(run, rng, &equal(g, n), m);
    }
    run.kind("slabs of every ink and line, unequal sizes in every order");
    let grids: [&[u8]; 8] = [&[2, 3], &[1, 255], &[1, 2, 3], &[2, 2, 5], &[1, 17, 40], &[2, 3, 4, 5], &[1, 1, 2, 2, 4], &[1, 1, 2, 2, 3, 3]];
    for (sizes, m) in grids.into_iter().flat_map(|sizes| [(sizes, 1), (sizes, 3)]) {
        orders(sizes).iter().for_each(|order| every_line(run, rng, order, m));
    }
}

/// The inks from before the first to after the last, each at every line that some ink has, and one more: its own size among them.
fn every_line(run: &mut Run, rng: &mut Rng, sizes: &[u8], m: usize) {
    let table = any_bits(rng, expected::total(sizes, m) as usize);
    let most = sizes.iter().copied().max().unwrap_or(1) as usize;
    for (j, k) in (0..=sizes.len() + 1).flat_map(|j| (0..=most).map(move |k| (j, k))) {
        run.hold(Slab::good(sizes, m, &table, j, k));
    }
}

/// One thing about a call that is set to something else.
#[derive(Clone, Copy)]
enum Change {
    Inks(usize),
    Outputs(usize),
    Size(usize, u8),
    Entries(usize),
    Ink(usize),
    Line(usize),
    Room(usize),
}

fn changed(rng: &mut Rng, call: &mut Slab, change: Change) {
    match change {
        Change::Inks(n) => call.n = n,
        Change::Outputs(m) => call.m = m,
        Change::Size(place, size) => call.sizes[place] = size,
        Change::Entries(length) => call.table.to_mut().resize_with(length, || rng.bits()),
        Change::Ink(j) => call.j = j,
        Change::Line(k) => call.k = k,
        Change::Room(room) => call.old = any_bits(rng, room),
    }
}

/// Inks that a table of n has not, or would have if they were cut to fewer bits; and its first and last.
fn inks(n: usize) -> Vec<usize> {
    COUNTS.iter().copied().chain([1, n - 1, n, n + 1, 15, (1 << 8) + n, (1 << 32) + n]).collect()
}

/// Lines around the first and the last of an ink, the last of each other ink and the one after it, and such that would be there if they were cut to fewer bits.
fn lines(used: &[u8], j: usize) -> Vec<usize> {
    let own = used[j.clamp(1, used.len()) - 1] as usize;
    let others = used.iter().flat_map(|&size| [size as usize - 1, size as usize]);
    [0, own - 1, own, own + 1, 255, 1 << 8, 1 << 32, (1 << 32) + own - 1, usize::MAX].into_iter().chain(others).collect()
}

/// What stands at or around a limit of a layout's call.
fn changes(used: &[u8], m: usize) -> Vec<Change> {
    let (n, total, part) = (used.len(), expected::total(used, m) as usize, expected::total(&used[..used.len() - 1], m) as usize);
    let mut list: Vec<Change> = COUNTS.iter().copied().chain([1, n - 1, n + 1, 15]).map(Change::Inks).collect();
    list.extend(COUNTS.iter().copied().chain([1, m - 1, m + 1, 15]).map(Change::Outputs));
    for place in [0, n - 1, n.min(15), 15] {
        list.extend([0, 1, used[place.min(n - 1)] ^ 1, 255].map(|size| Change::Size(place, size)));
    }
    list.extend([0, total - 1, total, total + 1].map(Change::Entries));
    list.extend(inks(n).into_iter().map(Change::Ink));
    list.extend(lines(used, n).into_iter().map(Change::Line));
    list.extend([0, part - 1, part, part + 1, total].map(Change::Room));
    list
}

fn limits(run: &mut Run, rng: &mut Rng) {
    run.kind("slabs around every limit, every pair of them");
    for (g, n, m) in [(1, 1, 1), (3, 1, 2), (1, 15, 15), (2, 2, 3), (3, 3, 4), (255, 2, 1), (2, 8, 1)] {
        pairs(run, rng, &equal(g, n), m);
    }
    run.kind("slabs of tables with unequal sizes around every limit, every pair of them");
    let grids: [(&[u8], usize); 5] = [(&[2, 3], 1), (&[3, 2], 3), (&[4, 1, 2], 2), (&[2, 1, 255], 1), (&[1, 2, 1, 3, 1, 2, 2], 1)];
    for (sizes, m) in grids {
        pairs(run, rng, sizes, m);
    }
}

/// The last ink at its last line, with every two changes.
fn pairs(run: &mut Run, rng: &mut Rng, sizes: &[u8], m: usize) {
    let (table, list) = (any_bits(rng, expected::total(sizes, m) as usize), changes(sizes, m));
    for (&first, &second) in list.iter().flat_map(|first| list.iter().map(move |second| (first, second))) {
        let mut call = Slab::good(sizes, m, &table, sizes.len(), sizes[sizes.len() - 1] as usize - 1);
        changed(rng, &mut call, first);
        changed(rng, &mut call, second);
        run.hold(call);
    }
}

/// A random call: mostly an ink and a line that are there; a table and a buffer at, one below or above what is needed, or longer.
fn random(rng: &mut Rng, sizes: Sizes) -> Slab<'static> {
    let bound = rng.pick(&[10, 30, 100, 300, 1_000]);
    let (used, m) = grid(rng, bound, sizes);
    let near = |rng: &mut Rng, exact: usize| (exact + rng.pick(&[0, 1, 1, 1, 1, 2, 9])).saturating_sub(1);
    let length = near(rng, expected::total(&used, m) as usize);
    let table = any_bits(rng, length);
    let j = if rng.one_in(8) { rng.pick(&inks(used.len())) } else { rng.within(1, used.len()) };
    let own = used[j.clamp(1, used.len()) - 1] as usize;
    let k = if rng.one_in(6) { rng.pick(&lines(&used, j)) } else { rng.below(own) };
    let mut call = Slab { sizes: laid(rng, &used), table: table.into(), ..Slab::good(&used, m, Vec::new(), j, k) };
    let room = near(rng, call.old.len());
    call.old = any_bits(rng, room);
    match rng.below(24) {
        0 => call.n = rng.below(18),
        1 => call.m = rng.below(18),
        2 => call.sizes[rng.below(16)] = rng.pick(&[0, 1, 2, 255]),
        _ => {}
    }
    call
}
