//! Time of one lookup, the library's and the Rust text's side by side: same machine, same table, same inputs, both for
//! release. First both must give the same bits at every input, but for those that demand 2 excepts (E4).
//!
//! Then the time of a lookup with a size for each ink, which the Rust text has not: its bits are held to the definition's (tests/oracle).
//!
//! Then that of a lookup with most inks at 0, plainly and with skipping (E6), beside the Rust text's: first all three must give equal
//! answers at every point. Two rows have no ink at 0, where skipping saves nothing.
//!
//! Then the time of reading a CLUT element, beside a plain Rust loop: the crate's own reading rounds twice. The same of values without a
//! header, and then that of cutting a slab, which the crate does not, beside a plain Rust loop too. Last, table files (files.rs).
//!
//! The Rust text is compiled with document 01's helpers, its record is made once and its call checks nothing but what a
//! slice does. The library's call lays out and checks every refusal each time.

mod files;
#[allow(dead_code)]
#[path = "../tests/differential/library.rs"]
mod library;
#[allow(dead_code)]
#[path = "../tests/differential/values.rs"]
mod values;

use std::hint::black_box;
use std::time::Instant;

/// Ink counts with a size whose table is a usual one, 1 KB to about 1 MB; and few inks on two lines, where the table is
/// small and a call's fixed cost shows.
const GRIDS: [(usize, u8); 15] =
    [(1, 255), (2, 33), (3, 33), (4, 17), (5, 9), (6, 6), (7, 5), (8, 4), (10, 3), (12, 2), (15, 2), (1, 2), (2, 2), (3, 2), (4, 2)];
/// Grids that are timed with few points too.
const FEW_TOO: [(usize, u8); 2] = [(3, 33), (4, 17)];
/// A size for each ink, of tables as large.
const OWN_SIZES: [&[u8]; 3] = [&[17, 17, 9, 17], &[9, 9, 9, 9, 5, 3], &[3, 3, 3, 3, 2, 2, 2, 2, 2, 2, 2, 2]];
/// Inks, lines and which inks are active, the first one and the one after the last; the others are 0. Then grids whose inks are all active.
const ACTIVE: [(usize, u8, [usize; 2]); 6] =
    [(12, 2, [0, 4]), (12, 2, [8, 12]), (15, 2, [0, 4]), (15, 2, [11, 15]), (4, 17, [0, 4]), (8, 4, [0, 8])];
/// How many values without a header: those of a table of 17 lines, four inks and three outputs; more than a cache holds; and few, where a
/// call's fixed cost shows.
const VALUES: [usize; 3] = [250_563, 4_194_304, 64];
/// Random points. With few of them, over and over, the processor learns by heart which of the Rust text's six branches comes next.
const POINTS: usize = 4096;
const FEW: usize = 512;
const ROUNDS: usize = 9;

fn main() {
    let rng = &mut values::Rng(7);
    println!("ns per lookup, best of {ROUNDS} rounds in turn; {}", std::env::consts::ARCH);
    println!("{:>3} {:>4} {:>3} {:>10} {:>7} {:>12} {:>12} {:>14}", "n", "g", "m", "table KB", "points", "Rust text", "library", "library/Rust");
    let most = GRIDS.map(|(n, g)| (n, g, POINTS));
    for (n, g, points) in most.into_iter().chain(FEW_TOO.map(|(n, g)| (n, g, FEW))) {
        for m in [3, 4] {
            let table: Vec<f32> = (0..(g as usize).pow(n as u32) * m).map(|_| rng.unit()).collect();
            let inputs: Vec<f32> = (0..points * n).map(|_| rng.unit()).collect();
            let (used, rust, library) = side_by_side(g, n, m, &table, &inputs);
            let kb = table.len() * 4 / 1024;
            println!("{n:>3} {g:>4} {m:>3} {kb:>10} {used:>7} {rust:>12.1} {library:>12.1} {:>14.2}", library / rust);
        }
    }
    own_sizes(rng);
    skipping(&mut values::Rng(6));
    println!("ns per entry of a CLUT element read, g 17, n 4, m 3");
    println!("{:>9} {:>12} {:>12} {:>14}", "precision", "Rust loop", "library", "library/Rust");
    for precision in [1, 2] {
        let (rust, library) = reading(rng, precision);
        println!("{precision:>9} {rust:>12.2} {library:>12.2} {:>14.2}", library / rust);
    }
    println!("ns per value read without a header");
    println!("{:>9} {:>9} {:>12} {:>12} {:>14}", "precision", "values", "Rust loop", "library", "library/Rust");
    for (precision, count) in [1, 2].into_iter().flat_map(|precision| VALUES.map(|count| (precision, count))) {
        let (rust, library) = units(rng, precision, count);
        println!("{precision:>9} {count:>9} {rust:>12.2} {library:>12.2} {:>14.2}", library / rust);
    }
    println!("ns per entry of a slab cut, g 17, n 4, m 3");
    println!("{:>9} {:>12} {:>12} {:>14}", "ink", "Rust loop", "library", "library/Rust");
    for j in 1..=4 {
        let (rust, library) = cutting(rng, j);
        println!("{j:>9} {rust:>12.3} {library:>12.3} {:>14.2}", library / rust);
    }
    files::rows(&mut values::Rng(9));
}

/// The best time of each in ns, of many rounds in turn.
fn in_turn(rust: impl FnMut(), library: impl FnMut()) -> (f64, f64) {
    fn timed(mut call: impl FnMut()) -> f64 {
        let began = Instant::now();
        call();
        began.elapsed().as_nanos() as f64
    }
    let (mut rust, mut library, mut best) = (rust, library, (f64::MAX, f64::MAX));
    for _ in 0..20 * ROUNDS {
        best = (best.0.min(timed(&mut rust)), best.1.min(timed(&mut library)));
    }
    best
}

/// The best time of each, in ns for one entry of the slab of ink j at line 8.
fn cutting(rng: &mut values::Rng, j: usize) -> (f64, f64) {
    let table: Vec<f32> = (0..17usize.pow(4) * 3).map(|_| rng.unit()).collect();
    let (mut a, mut b) = (vec![0.0f32; table.len() / 17], vec![1.0f32; table.len() / 17]);
    let best = in_turn(
        || rust_runs(black_box(&table), 17usize.pow(4 - j as u32) * 3, black_box(8), &mut a),
        || assert_eq!(library::cut_slab(&[17; 16], 4, 3, black_box(&table), j, black_box(8), &mut b), 0),
    );
    assert!(a == b, "ink {j}: not the same slab");
    (best.0 / a.len() as f64, best.1 / a.len() as f64)
}

/// What one would write: of every 17 runs of entries, as long as one line of the ink, the one of line k.
fn rust_runs(table: &[f32], run: usize, k: usize, slab: &mut [f32]) {
    for (part, lines) in slab.chunks_exact_mut(run).zip(table.chunks_exact(17 * run)) {
        part.copy_from_slice(&lines[k * run..][..run]);
    }
}

/// The best time of each, in ns for one entry of an element.
fn reading(rng: &mut values::Rng, precision: usize) -> (f64, f64) {
    let total = 17usize.pow(4) * 3;
    let mut element: Vec<u8> = (0..20 + precision * total).map(|_| rng.next() as u8).collect();
    element[..16].fill(17);
    element[16] = precision as u8;
    let (mut a, mut b, mut sizes) = (vec![0.0f32; total], vec![1.0f32; total], [0; 16]);
    let best = in_turn(
        || rust_loop(black_box(&element[20..]), black_box(precision), &mut a),
        || assert_eq!(library::read_clut(black_box(&element), 4, 3, &mut sizes, &mut b), 0),
    );
    assert!(a.iter().zip(&b).all(|(x, y)| x.to_bits() == y.to_bits()), "precision {precision}: not the same bits");
    (best.0 / total as f64, best.1 / total as f64)
}

/// The best time of each, in ns for one of so many values. Of few a round makes many calls, so that it takes long enough to be timed.
fn units(rng: &mut values::Rng, precision: usize, count: usize) -> (f64, f64) {
    let data: Vec<u8> = (0..precision * count).map(|_| rng.next() as u8).collect();
    let (mut a, mut b, calls) = (vec![0.0f32; count], vec![1.0f32; count], 100_000 / count + 1);
    let best = in_turn(
        || (0..calls).for_each(|_| rust_loop(black_box(&data), black_box(precision), black_box(&mut a))),
        || (0..calls).for_each(|_| assert_eq!(library::read_units(black_box(&data), black_box(precision), count, black_box(&mut b)), 0)),
    );
    assert!(a.iter().zip(&b).all(|(x, y)| x.to_bits() == y.to_bits()), "precision {precision}, {count} values: not the same bits");
    (best.0 / (calls * count) as f64, best.1 / (calls * count) as f64)
}

/// What one would write for both: for each width a loop that sets entry after entry by one division, as long as there are data. It refuses
/// nothing.
fn rust_loop(data: &[u8], precision: usize, entries: &mut [f32]) {
    if precision == 1 {
        entries.iter_mut().zip(data).for_each(|(entry, &v)| *entry = v as f32 / 255.0);
    } else {
        let pairs = data.chunks_exact(2);
        entries.iter_mut().zip(pairs).for_each(|(entry, v)| *entry = u16::from_be_bytes([v[0], v[1]]) as f32 / 65535.0);
    }
}

/// How many points were timed, and the best time of each, in ns for one lookup.
fn side_by_side(g: u8, n: usize, m: usize, table: &[f32], inputs: &[f32]) -> (usize, f64, f64) {
    let (lut, sizes) = (oracle::Lut::new(g, n, m), [g; 16]);
    let rust = |inputs: &[f32], answer: &mut [f32]| lut.lookup(black_box(table), inputs, answer);
    let library = |inputs: &[f32], answer: &mut [f32]| {
        black_box(library::lookup(black_box(&sizes), n, m, table, inputs, answer));
    };
    for point in inputs.chunks_exact(n).filter(|point| !oracle::excepted(g, point)) {
        let (mut a, mut b) = ([0.0f32; 15], [0.0f32; 15]);
        rust(point, &mut a);
        library(point, &mut b);
        assert_eq!(a.map(f32::to_bits), b.map(f32::to_bits), "n {n}, g {g}, m {m}: not the same bits at {point:?}");
    }
    // As many points, and passes over them, as take the Rust text some 10 ms.
    let once = time(n, &inputs[..16 * n], 1, &rust);
    let points = (1e7 / once).clamp(16.0, (inputs.len() / n) as f64) as usize;
    let passes = (1e7 / (once * points as f64)).clamp(1.0, 1e4) as usize;
    let inputs = &inputs[..points * n];
    let mut best = (f64::MAX, f64::MAX);
    for _ in 0..ROUNDS {
        best.0 = best.0.min(time(n, inputs, passes, &rust));
        best.1 = best.1.min(time(n, inputs, passes, &library));
    }
    (points, best.0, best.1)
}

/// The library's best time, in ns for one lookup. First its bits must be the definition's at every input.
fn alone(sizes: &[u8], m: usize, table: &[f32], inputs: &[f32]) -> f64 {
    let n = sizes.len();
    let sixteen = std::array::from_fn(|i| sizes.get(i).copied().unwrap_or(0));
    let library = |inputs: &[f32], answer: &mut [f32]| {
        black_box(library::lookup(black_box(&sixteen), n, m, table, inputs, answer));
    };
    for point in inputs.chunks_exact(n) {
        let mut answer = vec![0.0f32; m];
        library(point, &mut answer);
        let right = oracle::definition::lookup(sizes, m, table, point);
        assert!(answer.iter().zip(&right).all(|(x, y)| x.to_bits() == y.to_bits()), "{sizes:?}: not the same bits at {point:?}");
    }
    let once = time(n, inputs, 1, &library);
    let passes = (1e7 / (once * POINTS as f64)).clamp(1.0, 1e4) as usize;
    (0..ROUNDS).map(|_| time(n, inputs, passes, &library)).fold(f64::MAX, f64::min)
}

/// The rows of lookups with a size for each ink.
fn own_sizes(rng: &mut values::Rng) {
    println!("ns per lookup with a size for each ink, m 3; the Rust text has no such lookup");
    println!("{:>10} {:>12}  sizes", "table KB", "library");
    for sizes in OWN_SIZES {
        let table: Vec<f32> = (0..sizes.iter().fold(3, |total, &size| total * size as usize)).map(|_| rng.unit()).collect();
        let inputs: Vec<f32> = (0..POINTS * sizes.len()).map(|_| rng.unit()).collect();
        println!("{:>10} {:>12.1}  {sizes:?}", table.len() * 4 / 1024, alone(sizes, 3, &table, &inputs));
    }
}

/// The rows of lookups with skipping.
fn skipping(rng: &mut values::Rng) {
    println!("ns per lookup with some inks at 0, m 3, plainly and with skipping");
    let [rust, plain, skipping] = ["Rust text", "library", "skipping"];
    println!(
        "{:>3} {:>4} {:>7} {:>7} {rust:>12} {plain:>12} {skipping:>12} {:>14} {:>17}",
        "n", "g", "active", "points", "skipping/Rust", "skipping/library"
    );
    for (n, g, [first, end]) in ACTIVE {
        let table: Vec<f32> = (0..(g as usize).pow(n as u32) * 3).map(|_| rng.unit()).collect();
        let inputs: Vec<f32> = (0..POINTS * n).map(|i| if (first..end).contains(&(i % n)) { rng.unit() } else { 0.0 }).collect();
        let (points, [rust, library, skipping]) = three(g, n, &table, &inputs);
        let (active, of_rust, of_library) = (format!("{}-{end}", first + 1), skipping / rust, skipping / library);
        println!("{n:>3} {g:>4} {active:>7} {points:>7} {rust:>12.1} {library:>12.1} {skipping:>12.1} {of_rust:>14.4} {of_library:>17.4}");
    }
}

/// How many points were timed, and the best time of each, in ns for one lookup with m 3: the Rust text's, the library's plain one, and the
/// library's with skipping.
fn three(g: u8, n: usize, table: &[f32], inputs: &[f32]) -> (usize, [f64; 3]) {
    let (lut, sizes) = (oracle::Lut::new(g, n, 3), [g; 16]);
    let rust = |inputs: &[f32], answer: &mut [f32]| lut.lookup(black_box(table), inputs, answer);
    let plain = |inputs: &[f32], answer: &mut [f32]| {
        black_box(library::lookup(black_box(&sizes), n, 3, table, inputs, answer));
    };
    let skipping = |inputs: &[f32], answer: &mut [f32]| {
        let mut reads = 0;
        black_box(library::lookup_skipping(black_box(&sizes), n, 3, table, inputs, answer, black_box(&mut reads)));
    };
    for point in inputs.chunks_exact(n).filter(|point| !oracle::excepted(g, point)) {
        let [mut a, mut b, mut c] = [[0.0f32; 15]; 3];
        rust(point, &mut a);
        plain(point, &mut b);
        skipping(point, &mut c);
        assert!(a == b && b == c, "n {n}, g {g}: {a:?}, {b:?} and with skipping {c:?} at {point:?}");
    }
    // As many points as take the Rust text some 10 ms, and of each lookup as many passes over them as take it so long.
    let inputs = &inputs[..n * (1e7 / time(n, &inputs[..16 * n], 1, &rust)).clamp(16.0, POINTS as f64) as usize];
    let passes = [time(n, inputs, 1, &rust), time(n, inputs, 1, &plain), time(n, inputs, 1, &skipping)];
    let passes = passes.map(|once| (1e7 * n as f64 / (once * inputs.len() as f64)).clamp(1.0, 1e4) as usize);
    let mut best = [f64::MAX; 3];
    for _ in 0..ROUNDS {
        best[0] = best[0].min(time(n, inputs, passes[0], &rust));
        best[1] = best[1].min(time(n, inputs, passes[1], &plain));
        best[2] = best[2].min(time(n, inputs, passes[2], &skipping));
    }
    (inputs.len() / n, best)
}

fn time(n: usize, inputs: &[f32], passes: usize, lookup: &impl Fn(&[f32], &mut [f32])) -> f64 {
    let mut answer = [0.0f32; 15];
    let began = Instant::now();
    for _ in 0..passes {
        for point in inputs.chunks_exact(n) {
            lookup(point, &mut answer);
            black_box(&answer);
        }
    }
    began.elapsed().as_nanos() as f64 / (passes * inputs.len() / n) as f64
}
