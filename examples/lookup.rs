//! Looks a colour of four inks up in a small table and prints its bits and decimals.
use tenahvar::{lookup, node, Grid, Refusal};

const N: usize = 4;
const M: usize = 3;
const NODES: usize = 16;

/// Red, green and blue at the nodes of cyan, magenta, yellow and black: an ink takes its light away, black takes all.
fn table() -> Vec<f32> {
    let light_at = |node: usize, light: usize| {
        let (ink, black) = (node >> (N - 1 - light) & 1, node % 2);
        if ink + black == 0 {
            1.0
        } else {
            0.0
        }
    };
    (0..NODES * M).map(|e| light_at(e / M, e % M)).collect()
}

fn show(what: &str, colour: &[f32]) {
    let each: Vec<String> = colour
        .iter()
        .map(|x| format!(" {:08X} {x:.6}", x.to_bits()))
        .collect();
    println!("{what}{}", each.concat());
}

fn main() -> Result<(), Refusal> {
    let grid = Grid::new(2, N, M);
    let table = table();
    let inks = [0.1, 0.2, 0.3, 0.4];
    let mut answer = [0.0; M];

    lookup(&grid, &table, &inks, &mut answer)?;
    show("colour", &answer);

    show("node", node(&grid, &table, &[0, 1, 1, 0])?);

    if let Err(refusal) = lookup(&grid, &table[1..], &inks, &mut answer) {
        println!("a table of one entry less: refused {}", refusal.number());
    }

    let broken = [0.1, f32::NAN, 0.3, 0.4];
    if let Err(refusal) = lookup(&grid, &table, &broken, &mut answer) {
        println!(
            "a broken sensor's NaN: refused {}, {refusal}",
            refusal.number()
        );
    }
    Ok(())
}
