//! The library against the oracle: the same calls to both, and every bit compared. Every plain lookup is asked of the
//! first engine too, which must agree with the library's (engines.rs).
//!
//! Arguments: the number of random lookups with equal sizes, and as many with unequal ones (default 200,000), the seed (default 1), and `long` for larger sets.
//! Exit status 0 where all agree; 1 at the first difference, which is then reduced and printed in full.

mod case;
mod cluts;
mod counted;
mod cubes;
mod down;
mod elements;
mod engines;
mod exhaustive;
mod file_damage;
mod file_faults;
mod file_tables;
mod filed;
mod files;
mod fixed;
mod grids;
mod huge;
mod huge_cluts;
mod huge_files;
mod huge_slabs;
mod huge_units;
mod idle;
mod idle_tables;
mod layouts;
mod library;
mod limits;
mod lines;
mod long_files;
mod lookups;
mod many_blocks;
mod nans;
mod nodes;
mod random;
mod skipped;
mod slabs;
mod strides;
mod unequal;
mod units;
mod values;
mod visits;

/// Says what will be compared, and what the oracle is not asked.
fn announce(count: u64, seed: u64, long: bool) {
    println!("differential: {count} random lookups, seed {seed}{}", if long { ", long" } else { "" });
    println!("An input of -0.0 is handed to the Rust text as +0.0: Rust leaves the sign of its clip open.");
}

fn main() {
    let words: Vec<String> = std::env::args().skip(1).collect();
    let number = |place: usize, default| words.get(place).map_or(default, |w| w.parse().expect("a number"));
    let (count, seed) = (number(0, 200_000), number(1, 1));
    let long = words.get(2).is_some_and(|w| w == "long");
    announce(count, seed, long);
    // The lookups with skipping and the table files have random numbers of their own.
    let (run, rng, own) = (&mut case::Run::new(), &mut values::Rng(seed), &mut values::Rng(seed ^ 6 << 32));
    let filed = &mut values::Rng(seed ^ 9 << 32);
    skipped::condition();
    skipped::codes();
    skipped::definition(rng);
    idle_tables::cut(own);
    exhaustive::checked(run);
    strides::rule(run);
    layouts::all(run, rng);
    cubes::weights(run);
    nodes::all(run, rng);
    limits::lookups(run, rng);
    exhaustive::short(run, rng, long);
    exhaustive::skips(run, rng, long);
    skipped::examples(run);
    skipped::lookups(run, rng, long);
    nans::all(run, rng);
    unequal::lookups(run, rng, long);
    random::all(run, rng, count);
    idle::all(run, own, count, long);
    cubes::cubes(run, rng, count / 4);
    elements::all(run, rng, long);
    huge::lookups(run, rng, long);
    huge_cluts::refused(run);
    slabs::all(run, rng, long);
    fixed::all(run, rng, long);
    down::all(run, rng, long);
    huge_slabs::all(run, rng, long);
    lines::all(run, rng, long);
    units::all(run, rng, long);
    huge_units::all(run, rng, long);
    file_tables::all(run, filed, long);
    file_damage::all(run, filed, long);
    file_faults::all(run, filed, long);
    many_blocks::all(run, filed);
    huge_files::all(run, filed, long);
    run.files.complete();
    run.end();
}
