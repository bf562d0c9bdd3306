//! flash [FILE]: puts the table of a CLUT element into a table file, as for a controller's flash, takes it out again, and looks a colour
//! up before and after. With FILE the bytes are written there and read from there; without it they stay in memory. Then they are damaged.
//!
//! The element is of cyan, magenta, yellow and black with 3, 3, 2 and 3 lines. Red, green and blue are 1 - 0.4 * (cyan, magenta, yellow)
//! - 0.4 * black: the inks 0.1, 0.2, 0.3, 0.4 give 0.80, 0.76, 0.72.
use std::{env, error::Error, fs};
use tenahvar::{
    file_layout, file_length, lookup, read_clut, read_table, write_table, Grid, Refusal,
};

const N: usize = 4;
const M: usize = 3;
const TOTAL: usize = 3 * 3 * 2 * 3 * M;
const BLOCK: usize = 512;

/// The element: sixteen sizes, the precision, padding, then a byte for each entry. 0.2 is the byte 51.
fn element() -> Vec<u8> {
    let mut bytes = vec![0; 20];
    bytes[..N].copy_from_slice(&[3, 3, 2, 3]);
    bytes[16] = 1;
    bytes.extend((0..TOTAL).map(|e| {
        let (node, light) = (e / M, e % M);
        let lines = [node / 18, node / 6 % 3, 2 * (node / 3 % 2)];
        51 * (5 - lines[light] - node % 3) as u8
    }));
    bytes
}

fn show(what: &str, grid: &Grid, entries: &[f32]) -> Result<(), Refusal> {
    let mut colour = [0.0; M];
    lookup(grid, entries, &[0.1, 0.2, 0.3, 0.4], &mut colour)?;
    let [red, green, blue] = colour;
    println!("{what}: {red:.6} {green:.6} {blue:.6}");
    Ok(())
}

/// The table of a file: block 0 tells how much room the entries need.
fn read_back(file: &[u8]) -> Result<(Grid, Vec<f32>), Refusal> {
    let first = &file[..file.len().min(BLOCK)];
    let mut entries = vec![0.0; file_layout(first)?.total()?];
    let grid = read_table(file, &mut entries)?;
    Ok((grid, entries))
}

fn refused(what: &str, file: &[u8]) {
    if let Err(refusal) = read_back(file) {
        println!("{what}: refused {}, {refusal}", refusal.number());
    }
}

fn bits(entries: &[f32]) -> Vec<u32> {
    entries.iter().map(|e| e.to_bits()).collect()
}

fn main() -> Result<(), Box<dyn Error>> {
    let mut entries = vec![0.0; TOTAL];
    let grid = read_clut(&element(), N, M, &mut entries)?;
    show("before", &grid, &entries)?;

    let mut file = vec![0; file_length(&grid)?];
    write_table(&grid, &entries, &mut file)?;
    if let Some(name) = env::args_os().nth(1) {
        fs::write(&name, &file)?;
        file = fs::read(&name)?;
    }

    let (told, after) = read_back(&file)?;
    let (n, m, total, length) = (told.n, told.m, after.len(), file.len());
    println!("table file: {n} inks in, {m} out, {total} entries, {length} bytes");
    show("after", &told, &after)?;
    let same = bits(&entries) == bits(&after);
    let verdict = if same { "are the same" } else { "differ" };
    println!("the entries {verdict}");

    refused("the last block is missing", &file[..length - BLOCK]);
    file[BLOCK + 100] ^= 1;
    refused("a byte of block 1 is damaged", &file);
    Ok(())
}
