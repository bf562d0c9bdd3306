//! Writes the vectors that the program `replay` is held to: FOLDER/stdin and FOLDER/stdout, and those of the table files,
//! FOLDER/files.stdin and FOLDER/files.stdout. The answers are the oracle's, the numbers document 01's. The same files come out on every machine. Without a lookup that shows E4's difference from the crate it ends.

mod calls;
mod cluts;
mod filed;
mod files;
#[allow(dead_code)]
#[path = "../differential/grids.rs"]
mod grids;
mod idle;
mod list;
mod lookups;
mod nans;
mod others;
mod slabs;
mod unequal;
mod units;
#[allow(dead_code)]
#[path = "../differential/values.rs"]
mod values;

fn main() {
    let folder = std::env::args().nth(1).expect("usage: vectors FOLDER");
    let (list, rng) = (&mut list::List::default(), &mut values::Rng(20_240_229));
    lookups::checked(list);
    lookups::every_count(list, rng);
    lookups::special_values(list, rng);
    lookups::signed_zeros(list, rng);
    lookups::skips(list, rng);
    lookups::limits(list, rng);
    lookups::damaged(list, rng);
    lookups::nodes(list, rng);
    unequal::all(list, rng);
    others::layouts(list, rng);
    others::weights(list, rng);
    others::cubes(list, rng);
    cluts::all(list, rng);
    slabs::all(list, rng);
    units::all(list, rng);
    nans::all(list, rng);
    idle::all(list, rng);
    write(list, &folder, "");
    tell(list);
    // The table files are a list of their own.
    let filed = &mut list::List::default();
    files::all(filed, rng);
    write(filed, &folder, "files.");
    tell_files(filed);
}

/// Ends the list and writes it: by a kind that is none. The case behind it must not be printed.
fn write(list: &mut list::List, folder: &str, name: &str) {
    list.stdin.push_str("ff 1 2\n4 9 3\n");
    std::fs::write(format!("{folder}/{name}stdin"), &list.stdin).expect("stdin is written");
    std::fs::write(format!("{folder}/{name}stdout"), &list.stdout).expect("stdout is written");
    assert!(list.stdin.len() <= list::TEXT, "the list is longer than what is to be stored");
}

/// Says what the list holds, and ends where it does not show what it should.
fn tell(list: &list::List) {
    let names = [
        "", "lookups", "layouts", "nodes", "weights", "sizes' weights", "pyramids", "prisms", "trilinears", "constant's entries", "CLUTs",
        "slabs", "units", "lookups with skipping",
    ];
    let told: Vec<String> = (1..names.len()).map(|k| format!("{} {}", list.counts[k], names[k])).collect();
    println!(
        "vectors: {} cases ({}); stdin {} bytes, stdout {} bytes, {} table entries in all",
        list.counts.iter().sum::<usize>(), told.join(", "), list.stdin.len(), list.stdout.len(), list.entries
    );
    let unequal: Vec<String> = [1, 2, 3, 10, 11, 13].map(|k| format!("{} {}", list.unequal[k], names[k])).into();
    println!("vectors: with unequal sizes (E5): {}", unequal.join(", "));
    let [excepted, parted] = list.excepted;
    println!("vectors: {excepted} lookups are excepted from demand 2 (E4); in {parted} of them the Rust text answers otherwise");
    assert!(parted > 0, "no stored lookup shows the upper node of E4");
    println!("vectors: {} lookups are refused for a NaN input (E8)", list.nans);
    let [accepted, otherwise] = list.skipping;
    println!("vectors: {accepted} lookups with skipping (E6) are accepted; in {otherwise} of them the plain lookup answers otherwise");
    assert!(otherwise > 0, "no stored lookup shows that skipping leaves the upper part out");
}

/// The same of the table files (E9).
fn tell_files(list: &list::List) {
    println!(
        "vectors: {} table files written, {} read ({} and {} with unequal sizes); stdin {} bytes, stdout {} bytes",
        list.counts[14], list.counts[15], list.unequal[14], list.unequal[15], list.stdin.len(), list.stdout.len()
    );
    let by_number = |call: usize| {
        let told: Vec<String> = (0..21).filter(|&k| list.filed[k][call] > 0).map(|k| format!("{k}: {}", list.filed[k][call])).collect();
        told.join(", ")
    };
    println!("vectors: table files (E9) by number: written {}; read {}; layouts alone {}", by_number(0), by_number(1), by_number(2));
    let met = |call: usize, numbers: &[usize]| numbers.iter().all(|&k| list.filed[k][call] > 0);
    let all = met(0, &[0, 6, 8, 9]) && met(1, &[0, 1, 2, 3, 5, 8, 17, 18, 19, 20]) && met(2, &[0, 1, 2, 3, 5, 17, 18, 19, 20]);
    assert!(all, "a refusal of table files is not stored");
}
