//! A page uses four of twelve inks: its colours are looked up without the halves that count for nothing, and the node reads are told.
//!
//! Each ink has two lines. Ink i, from 0, takes 1/16 of each light, and of light i % 3 another 1/16: with all twelve nothing is left. A lookup of twelve inks
//! makes 6 * 2^9 = 3072 node reads. Here they are 6, doubled by each ink from the fourth on that stands between two lines.
use tenahvar::{lookup, lookup_skipping, Grid, Refusal};

const N: usize = 12;
const M: usize = 3;

fn table(total: usize) -> Vec<f32> {
    let light_at = |node: usize, light: usize| {
        let full = (0..N).filter(|ink| node >> (N - 1 - ink) & 1 == 1);
        let taken: u8 = full.map(|ink| 1 + u8::from(ink % M == light)).sum();
        f32::from(16 - taken) / 16.0
    };
    (0..total).map(|e| light_at(e / M, e % M)).collect()
}

/// The inks in use, by their numbers from 1; the others are idle.
fn page(used: &[(usize, f32)]) -> [f32; N] {
    core::array::from_fn(|i| used.iter().find(|u| u.0 == i + 1).map_or(0.0, |u| u.1))
}

fn main() -> Result<(), Refusal> {
    let grid = Grid::new(2, N, M);
    let table = table(grid.total()?);
    // The colour by both calls, and the reads.
    let show = |what: &str, inks: [f32; N]| {
        let (mut plain, mut colour) = ([0.0; M], [0.0; M]);
        lookup(&grid, &table, &inks, &mut plain)?;
        let reads = lookup_skipping(&grid, &table, &inks, &mut colour)?;
        let decimals = |[red, green, blue]: [f32; M]| format!("{red:.6} {green:.6} {blue:.6}");
        let (plain, colour) = (decimals(plain), decimals(colour));
        println!("{what}: lookup {plain}, skipping {colour}, {reads} reads");
        Ok(())
    };

    let first = page(&[(1, 0.5), (2, 0.25), (3, 0.75), (4, 0.5)]);
    let last = page(&[(9, 0.25), (10, 0.5), (11, 0.5), (12, 0.75)]);
    // Ink 9 is full: it stands on its last line and costs nothing.
    let apart = page(&[(2, 0.5), (5, 0.25), (9, 1.0), (12, 0.5)]);
    show("paper", [0.0; N])?;
    show("inks 1 to 4", first)?;
    show("inks 9 to 12", last)?;
    show("inks 2, 5, 9, 12", apart)?;
    show("all inks", [0.5; N])?;

    let broken = page(&[(1, 0.5), (2, 0.25), (3, 0.75), (4, f32::NAN)]);
    let refused = lookup_skipping(&grid, &table, &broken, &mut [0.0; M]);
    if let Err(refusal) = refused {
        // Where C reports 0 reads, a refusal stands in place of the count.
        let (number, reads) = (refusal.number(), refused.unwrap_or(0));
        println!("a broken sensor's NaN: refused {number}, {reads} reads");
    }
    Ok(())
}
