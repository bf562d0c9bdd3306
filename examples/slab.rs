//! A proofer fixes black: cuts it out of a table of five inks at a grid line and looks colours up with the four others.
//!
//! Cyan and magenta have three lines, yellow two, black five and light black two. The light at a node is (1 - ink) * (1 - black) * (1 - light black / 2),
//! with cyan for red, magenta for green and yellow for blue. Black on line 2 of 0 to 4 is 0.5, so the inks 0.25, 0.5, 0.75 with light black 0.5 leave
//! 0.75, 0.5 and 0.25 times 0.5 * 0.75: 0.28125, 0.1875, 0.09375.
use tenahvar::{cut_slab, lookup, Grid, Refusal};

const SIZES: [u8; 5] = [3, 3, 2, 5, 2];
const M: usize = 3;
const BLACK: usize = 4;
const LINE: usize = 2;

/// What an ink leaves of the light at a node: 1 on its first line, 0 on its last.
fn left(node: usize, ink: usize) -> f32 {
    let below: usize = SIZES[ink + 1..].iter().map(|&size| size as usize).product();
    let line = node / below % SIZES[ink] as usize;
    1.0 - line as f32 / (SIZES[ink] - 1) as f32
}

fn table(total: usize) -> Vec<f32> {
    let light_at = |node, light| left(node, light) * left(node, 3) * (1.0 + left(node, 4)) / 2.0;
    (0..total).map(|e| light_at(e / M, e % M)).collect()
}

fn show(what: &str, [red, green, blue]: [f32; M]) {
    println!("{what} {red:.5} {green:.5} {blue:.5}");
}

fn main() -> Result<(), Refusal> {
    let grid = Grid::of_sizes(&SIZES, M);
    let table = table(grid.total()?);
    let mut colour = [0.0; M];

    lookup(&grid, &table, &[0.25, 0.5, 0.75, 0.5, 0.5], &mut colour)?;
    show("five inks", colour);

    // The slab's grid: black's size is taken out, and those after it move up by one.
    let lines = SIZES[BLACK - 1] as usize;
    let mut slab = vec![0.0; table.len() / lines];
    let smaller = cut_slab(&grid, &table, BLACK, LINE, &mut slab)?;
    lookup(&smaller, &slab, &[0.25, 0.5, 0.75, 0.5], &mut colour)?;
    show("four inks", colour);

    if let Err(refusal) = cut_slab(&grid, &table, BLACK, lines, &mut slab) {
        println!("black past its last line: refused {}", refusal.number());
    }
    Ok(())
}
