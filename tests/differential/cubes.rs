//! Weights for 8-bit codes and the three cube methods.

use crate::case::{compare, guarded, numbers, plainness, Case, Run, GUARD};
use crate::library::{self, Method};
use crate::values::{fill_table, Rng, SPECIAL};
use oracle::{expected, Cell, CUBE_SIZES};

#[derive(Clone)]
struct Weights {
    g: u8,
}

impl Case for Weights {
    fn number(&self) -> u32 {
        expected::weights(self.g)
    }

    fn difference(&self) -> Option<String> {
        let mut weights = ([0xA5A5; 256], [0x5A5A; 256], [f32::from_bits(0xFFA5_A5A5); 256]);
        let got = library::create_ranged_256(self.g, &mut weights.0, &mut weights.1, &mut weights.2);
        let number = self.number();
        if got != number {
            return Some(format!("the number is {got}, not {number}"));
        }
        let untouched = Cell { x: 0xA5A5, x_n: 0x5A5A, w: f32::from_bits(0xFFA5_A5A5) };
        let right = if number == 0 { oracle::weights(self.g) } else { vec![untouched; 256] };
        (0..256).find_map(|i| {
            let (got, right) = ((weights.0[i], weights.1[i], weights.2[i].to_bits()), right[i]);
            let right = (right.x, right.x_n, right.w.to_bits());
            (got != right).then(|| format!("index {i}: x, x_n and weight bits are {got:X?}, not {right:X?}"))
        })
    }
    fn smaller(&self, take: &mut dyn FnMut(Self) -> bool) {
        for g in 0..self.g {
            if take(Weights { g }) {
                return;
            }
        }
    }
    fn shown(&self) -> String {
        format!("create_ranged_256: g {}", self.g)
    }
}

#[derive(Clone)]
struct Cube {
    method: Method,
    x: [usize; 3],
    x_n: [usize; 3],
    w: [f32; 3],
    g: u8,
    m: usize,
    cube: Vec<f32>,
    answer: usize,
}

impl Case for Cube {
    fn number(&self) -> u32 {
        expected::cube(&self.x, &self.x_n, self.g, self.m, self.cube.len(), self.answer)
    }

    fn difference(&self) -> Option<String> {
        let Cube { method, x, x_n, w, g, m, cube, answer } = self;
        let mut buffer = guarded(*answer);
        let got = library::cube(*method, x, x_n, w, *g, *m, cube, &mut buffer[GUARD..GUARD + answer]);
        let number = self.number();
        if got != number {
            return Some(format!("the number is {got}, not {number}"));
        }
        if number != 0 {
            return compare(&buffer, &[]);
        }
        let of_method = match method {
            Method::Pyramidal => oracle::pyramidal,
            Method::Prismatic => oracle::prismatic,
            Method::Trilinear => oracle::trilinear,
        };
        let cells = [0, 1, 2].map(|i| Cell { x: x[i], x_n: x_n[i], w: w[i] });
        compare(&buffer, &of_method(&cells, *g, *m, cube))
    }

    fn smaller(&self, take: &mut dyn FnMut(Self) -> bool) {
        for i in 0..3 {
            let mut call = self.clone();
            (call.x[i], call.x_n[i]) = (0, self.x_n[i].min(1));
            if (call.x[i], call.x_n[i]) != (self.x[i], self.x_n[i]) && take(call) {
                return;
            }
        }
        for place in 0..self.cube.len() {
            let mut call = self.clone();
            call.cube[place] = 0.0;
            if plainness(self.cube[place]) > 0 && take(call) {
                return;
            }
        }
    }

    fn shown(&self) -> String {
        let Cube { method, x, x_n, w, g, m, cube, answer } = self;
        let (w, cube) = (numbers(w), numbers(cube));
        format!("{method:?}: x {x:?}, x_n {x_n:?}, weights {w}, g {g}, m {m}, answer buffer of {answer}\n  cube of {cube}")
    }
}

pub fn weights(run: &mut Run) {
    run.kind("weights, every g 0 to 255, all 256 indexes each");
    for g in 0..=255 {
        run.hold(Weights { g });
    }
}

/// A weight of any sort; ties are common, since the cases of pyramid and prism turn on them.
fn weight(rng: &mut Rng, others: &[f32]) -> f32 {
    match rng.below(6) {
        0 => f32::from_bits(rng.pick(&SPECIAL)),
        1 => rng.bits(),
        2 if !others.is_empty() => rng.pick(others),
        _ => rng.unit(),
    }
}

/// Accepted and refused cubes, `count` of each method: NaN weights, reversed and equal cells, every fault alone or paired.
pub fn cubes(run: &mut Run, rng: &mut Rng, count: u64) {
    run.kind("cubes: pyramid, prism and trilinear, m 0 to 5, g 0 to 9, 16, 17 and 33");
    for i in 0..count {
        let g = if rng.one_in(64) { rng.pick(CUBE_SIZES) } else { rng.within(1, 5) as u8 };
        let m = rng.within(3, 4);
        let mut cube = vec![0.0; expected::total(&[g; 3], m) as usize + rng.below(2)];
        fill_table(rng, &mut cube);
        let node = |rng: &mut Rng| rng.below(g as usize);
        let x = [node(rng), node(rng), node(rng)];
        let x_n = if rng.one_in(3) { [node(rng), node(rng), node(rng)] } else { x.map(|k| (k + 1).min(g as usize - 1)) };
        let mut w = [0.0; 3];
        for k in 0..3 {
            w[k] = weight(rng, &w[..k].to_vec());
        }
        let answer = m + if rng.one_in(3) { rng.below(4) } else { 0 };
        let mut call = Cube { method: Method::Pyramidal, x, x_n, w, g, m, cube, answer };
        if i % 4 == 3 {
            for _ in 0..rng.within(1, 2) {
                damage(rng, &mut call);
            }
        }
        for method in [Method::Pyramidal, Method::Prismatic, Method::Trilinear] {
            run.hold(Cube { method, ..call.clone() });
        }
    }
}

fn damage(rng: &mut Rng, call: &mut Cube) {
    let g = call.g as usize;
    let outside = rng.pick(&[g, g + 1, 255, 256, 1 << 31, 1 << 32, usize::MAX]);
    match rng.below(6) {
        0 => call.m = rng.pick(&[0, 1, 2, 5, 15, 16, (1 << 32) + 3, usize::MAX]),
        1 => call.g = 0,
        2 => call.cube.truncate((expected::total(&[call.g; 3], call.m.min(15)) as usize).saturating_sub(1)),
        3 => call.answer = rng.pick(&[0, call.m.min(15).saturating_sub(1)]),
        4 => call.x[rng.below(3)] = outside,
        _ => call.x_n[rng.below(3)] = outside,
    }
}
