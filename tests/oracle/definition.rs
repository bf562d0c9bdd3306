//! A lookup in the words of document 01, with document 02's upper node (E4) and a size for each ink (E5), over coordinates, for inputs that are numbers
//! (E8). Nothing here is taken from the crate: it is the oracle where demand 2 leaves the crate's text out and where sizes are unequal. Every product,
//! sum and difference is rounded once, in the order written.
//!
//! The lookup with skipping (E6) is the same reading with a switch: from the fourth ink on, an idle one, with the weight 0, has its lower
//! part's answer as it stands. Every read of a node is counted where it is made.

use crate::Cell;

/// Clip a number: above 1 is 1; above 0 is itself; all else, both zeros included, is +0.0. A NaN is refused before (E8).
fn clip(x: f32) -> f32 {
    assert!(x == x, "no lookup with a NaN input is accepted");
    if x > 1.0 {
        1.0
    } else if x > 0.0 {
        x
    } else {
        0.0
    }
}

/// p: the clipped input times the ink's size less 1, rounded.
pub fn product(size: u8, x: f32) -> f32 {
    clip(x) * f32::from(size - 1)
}

/// The cell of an ink, counted from 1: inks 1 to 4 have p rounded up for the upper node, later ones the lower node plus one, but never
/// past the last line.
fn cell(ink: usize, size: u8, x: f32) -> Cell {
    let p = product(size, x);
    let lower = p as usize;
    let upper = if ink <= 4 { p.ceil() as usize } else { (lower + 1).min(size as usize - 1) };
    Cell { x: lower, x_n: upper, w: p - lower as f32 }
}

/// One output of a table whose inks have a size each, the cells of the inputs, whether idle inks are skipped, and the reads made so far.
struct Output<'a> {
    sizes: &'a [u8],
    m: usize,
    table: &'a [f32],
    place: usize,
    cells: &'a [Cell],
    skipping: bool,
    reads: u32,
}

impl Output<'_> {
    /// Reads the entry of a node. ICC.1: the first ink varies least rapidly, and a node's m outputs stand together.
    fn entry(&mut self, node: &[usize]) -> f32 {
        self.reads += 1;
        let number = self.sizes.iter().zip(node).fold(0, |number, (&size, &k)| number * size as usize + k);
        self.table[number * self.m + self.place]
    }

    /// The blend along the first `inks` inks; the later ones stand at their coordinates in `node`. With skipping, from the fourth ink on,
    /// only the lower part is visited where the weight is 0, of either sign.
    fn blend(&mut self, inks: usize, node: &mut [usize]) -> f32 {
        match inks {
            0 => return self.entry(node),
            3 => return self.tetra(node),
            _ => {}
        }
        let Cell { x, x_n, w } = self.cells[inks - 1];
        if self.skipping && inks > 3 && w == 0.0 {
            node[inks - 1] = x;
            return self.blend(inks - 1, node);
        }
        let [a, b] = [x, x_n].map(|k| {
            node[inks - 1] = k;
            self.blend(inks - 1, node)
        });
        if inks < 3 {
            a * (1.0 - w) + b * w
        } else {
            (a - a * w) + b * w
        }
    }

    /// From the lower corner of three cells to the upper one, ink by ink: the larger weight first, of equal ones the earlier ink. An ink's term
    /// is what its step changes, times its weight; the terms of ink 1, 2 and 3 are added in this order. As in the source what the second and
    /// the third step start from is read again: six reads.
    fn tetra(&mut self, node: &mut [usize]) -> f32 {
        let mut steps = [0, 1, 2];
        steps.sort_by(|&i, &j| self.cells[j].w.total_cmp(&self.cells[i].w));
        steps.iter().for_each(|&i| node[i] = self.cells[i].x);
        let (c0, mut changes) = (self.entry(node), [0.0; 3]);
        for i in steps {
            let before = if i == steps[0] { c0 } else { self.entry(node) };
            node[i] = self.cells[i].x_n;
            changes[i] = self.entry(node) - before;
        }
        (0..3).fold(c0, |sum, i| sum + changes[i] * self.cells[i].w)
    }
}

/// The m answers of an accepted call, and the reads of one output, which are those of every other.
fn answered(sizes: &[u8], m: usize, table: &[f32], inputs: &[f32], skipping: bool) -> (Vec<f32>, u32) {
    let cells: Vec<Cell> = (0..inputs.len()).map(|i| cell(i + 1, sizes[i], inputs[i])).collect();
    let (mut node, mut reads) = (vec![0; inputs.len()], None);
    let answers = (0..m).map(|place| {
        let mut output = Output { sizes, m, table, place, cells: &cells, skipping, reads: 0 };
        let answer = output.blend(inputs.len(), &mut node);
        assert_eq!(*reads.get_or_insert(output.reads), output.reads, "two outputs of a call have not the same reads");
        answer
    });
    (answers.collect(), reads.unwrap_or(0))
}

/// The m answers of an accepted lookup; `sizes` has one size for each input.
pub fn lookup(sizes: &[u8], m: usize, table: &[f32], inputs: &[f32]) -> Vec<f32> {
    answered(sizes, m, table, inputs, false).0
}

/// The m answers of an accepted lookup with skipping (E6), and the reads that it reports: those made here, as many as the closed form says.
pub fn skipping(sizes: &[u8], m: usize, table: &[f32], inputs: &[f32]) -> (Vec<f32>, u32) {
    let (answers, reads) = answered(sizes, m, table, inputs, true);
    assert_eq!(reads, closed_count(sizes, inputs), "the reads made with {sizes:?} at {inputs:?} are not those of the closed form");
    (answers, reads)
}

/// Whether an ink falls on a grid line: its product is whole, and so its weight is 0.
pub fn on_line(size: u8, x: f32) -> bool {
    product(size, x).fract() == 0.0
}

/// Document 02's count (E6) in its closed form: 2 for one ink, 4 for two, else 6 times 2 to the power k, with k the number of inks from the
/// fourth on that are not idle.
pub fn closed_count(sizes: &[u8], inputs: &[f32]) -> u32 {
    let active = sizes.iter().zip(inputs).skip(3).filter(|(&size, &x)| !on_line(size, x)).count() as u32;
    match sizes.len() {
        1 => 2,
        2 => 4,
        _ => 6 * 2u32.pow(active),
    }
}
