//! Random numbers, the special values, and inputs with a wanted product.

use oracle::definition::on_line;

/// A small generator (splitmix64), the same on every machine.
pub struct Rng(pub u64);

impl Rng {
    pub fn next(&mut self) -> u64 {
        self.0 = self.0.wrapping_add(0x9E37_79B9_7F4A_7C15);
        let mut z = self.0;
        z = (z ^ (z >> 30)).wrapping_mul(0xBF58_476D_1CE4_E5B9);
        z = (z ^ (z >> 27)).wrapping_mul(0x94D0_49BB_1331_11EB);
        z ^ (z >> 31)
    }
    pub fn below(&mut self, end: usize) -> usize {
        (self.next() >> 11) as usize % end
    }
    pub fn within(&mut self, from: usize, to: usize) -> usize {
        from + self.below(to - from + 1)
    }
    pub fn one_in(&mut self, k: usize) -> bool {
        self.below(k) == 0
    }
    pub fn pick<T: Copy>(&mut self, list: &[T]) -> T {
        list[self.below(list.len())]
    }
    /// A share of 0 to below 1, one of 2²⁴.
    pub fn unit(&mut self) -> f32 {
        (self.next() >> 40) as f32 / 16_777_216.0
    }
    pub fn bits(&mut self) -> f32 {
        f32::from_bits((self.next() >> 16) as u32)
    }
}

/// The next float below or above a positive one.
pub fn before(x: f32) -> f32 {
    f32::from_bits(x.to_bits() - 1)
}
pub fn after(x: f32) -> f32 {
    f32::from_bits(x.to_bits() + 1)
}

/// Inputs of every sort: zeros, subnormals, tiny, around 1, above, infinities, two quiet NaNs, negatives.
pub const SPECIAL: [u32; 22] = [
    0x0000_0000, 0x8000_0000, 0x0000_0001, 0x8000_0001, 0x007F_FFFF, 0x0080_0000, 0x0D80_0000, 0x3300_0000, 0x3E80_0000, 0x3EFF_FFFF,
    0x3F00_0000, 0x3F00_0001, 0x3F7F_FFFF, 0x3F80_0000, 0x3F80_0001, 0x4000_0000, 0x7F7F_FFFF, 0x7F80_0000, 0xFF80_0000, 0x7FC0_0000,
    0xFFC0_1234, 0xBF80_0000,
];

/// The NaNs at the ends: of each sign the first and the last quiet one and signalling one.
pub const NANS: [u32; 8] =
    [0x7FC0_0000, 0x7FFF_FFFF, 0xFFC0_0000, 0xFFFF_FFFF, 0x7F80_0001, 0x7FBF_FFFF, 0xFF80_0001, 0xFFBF_FFFF];

/// A NaN: one at an end, or of any sign, kind and payload.
pub fn random_nan(rng: &mut Rng) -> f32 {
    let any = 0x7F80_0001 + rng.below(0x7F_FFFF) as u32 | (rng.below(2) as u32) << 31;
    f32::from_bits(if rng.one_in(2) { rng.pick(&NANS) } else { any })
}

/// The number itself; in a NaN's place the infinity of its sign.
pub fn numeric(x: f32) -> f32 {
    if x.is_nan() { f32::INFINITY.copysign(x) } else { x }
}

/// Table entries of every sort; a signalling NaN too, for no entry is answered without arithmetic.
pub const ENTRIES: [u32; 16] = [
    0x0000_0000, 0x8000_0000, 0x0000_0001, 0x8000_0001, 0x007F_FFFF, 0x0080_0000, 0x3F00_0000, 0x3F80_0000, 0xBF80_0000, 0x3F7F_FFFF,
    0x7F7F_FFFF, 0xFF7F_FFFF, 0x7F80_0000, 0xFF80_0000, 0x7FC0_0000, 0x7F80_0001,
];

/// Entries that show in any blend, whatever their weight: none that a lookup with skipping leaves out may be among those it reads.
pub const STRANGE: [f32; 6] = [f32::NAN, f32::INFINITY, f32::NEG_INFINITY, f32::MAX, f32::MIN, f32::NAN];

/// The inputs around p/(g−1) whose rounded product with g−1 is exactly p.
pub fn with_products(g: u8, p: f32) -> impl Iterator<Item = f32> {
    let scale = f32::from(g - 1);
    let near = (p / scale).to_bits();
    (near.saturating_sub(3)..=near + 3).map(f32::from_bits).filter(move |&x| x <= 1.0 && x * scale == p)
}

/// An input whose rounded product with g−1 is exactly p, if there is one.
pub fn with_product(g: u8, p: f32) -> Option<f32> {
    with_products(g, p).next()
}

/// The inputs whose product is just under a power of two: there the rounded p+1 skips a node, if g leaves room for it.
pub fn skipping(g: u8) -> Vec<f32> {
    (0..8).map(|k| before((1u32 << k) as f32)).filter(|&p| g > 1 && p < f32::from(g - 1)).filter_map(|p| with_product(g, p)).collect()
}

/// The special values, and for g: products just under powers of two, the grid lines and their neighbours.
pub fn special_inputs(g: u8) -> Vec<f32> {
    let mut list: Vec<f32> = SPECIAL.iter().map(|&b| f32::from_bits(b)).collect();
    list.extend(skipping(g));
    for line in 1..g as usize {
        if line < 4 || line + 2 > g as usize || line % 16 == 0 {
            let x = line as f32 / f32::from(g - 1);
            list.extend([before(x), x, after(x)]);
        }
    }
    list.sort_by_key(|x| x.to_bits());
    list.dedup_by_key(|x| x.to_bits());
    list
}

/// A random input of a random sort, rarely a NaN.
pub fn random_input(rng: &mut Rng, g: u8) -> f32 {
    let scale = f32::from(g.max(2) - 1);
    match rng.below(13) {
        0 => f32::from_bits(rng.pick(&SPECIAL)),
        1 => rng.bits(),
        2 => rng.below(256) as f32 / 255.0,
        3 => rng.within(0, scale as usize) as f32 / scale,
        4 => before(rng.within(1, scale as usize) as f32 / scale),
        5 => after(rng.within(0, scale as usize) as f32 / scale),
        6 => rng.pick(&[0.25, 0.5, 0.75, 0.125]),
        7 if g > 1 => skipping(g).first().copied().unwrap_or(1.0),
        8 if g > 1 => skipping(g).last().copied().unwrap_or(1.0),
        // A weight that inks of other sizes may have too.
        9 => (rng.below(scale as usize) as f32 + rng.pick(&[0.25, 0.5, 0.75])) / scale,
        _ => rng.unit(),
    }
}

/// Inputs for inks of these sizes, which start over after the last; often several alike, so that weights tie.
pub fn random_inputs(rng: &mut Rng, sizes: &[u8], inputs: &mut [f32]) {
    let alike = rng.one_in(4);
    for i in 0..inputs.len() {
        inputs[i] = if alike && i > 0 && rng.one_in(2) { inputs[rng.below(i)] } else { random_input(rng, sizes[i % sizes.len()]) };
    }
}

/// The same, none a NaN.
pub fn random_numbers(rng: &mut Rng, sizes: &[u8], inputs: &mut [f32]) {
    random_inputs(rng, sizes, inputs);
    inputs.iter_mut().for_each(|x| *x = numeric(*x));
}

/// An input with which an ink of this size is idle, or one with which it is not; with one line it always is. A line, its neighbours, a
/// special value (both zeros, the smallest floats, what is clipped), or a share.
pub fn idle_or_active(rng: &mut Rng, size: u8, idle: bool) -> f32 {
    assert!(idle || size > 1, "an ink with one line is idle");
    loop {
        let line = rng.within(0, size as usize - 1) as f32 / f32::from(size.max(2) - 1);
        let x = match rng.below(8) {
            0 | 1 => line,
            2 => after(line),
            3 if line > 0.0 => before(line),
            4 | 5 => numeric(f32::from_bits(rng.pick(&SPECIAL))),
            _ => rng.unit(),
        };
        if on_line(size, x) == idle {
            return x;
        }
    }
}

/// Inputs of which those of the set, a bit for each ink from the first on, are idle; an ink with one line is in any case.
pub fn with_idle(rng: &mut Rng, sizes: &[u8], set: usize) -> Vec<f32> {
    sizes.iter().enumerate().map(|(ink, &size)| idle_or_active(rng, size, size == 1 || set >> ink & 1 == 1)).collect()
}

/// A table of one of eight sorts.
pub fn fill_table(rng: &mut Rng, table: &mut [f32]) {
    let sort = rng.below(8);
    for entry in table.iter_mut() {
        *entry = match sort {
            0 | 1 => rng.unit(),
            2 => finite(rng),
            3 => rng.bits(),
            4 => f32::from_bits(rng.pick(&ENTRIES)),
            5 => rng.below(16) as f32 - 4.0,
            6 => if rng.one_in(2) { -0.0 } else { 0.0 },
            _ => 0.0,
        };
    }
    if sort == 7 {
        let place = rng.below(table.len());
        table[place] = 1.0;
    }
}

/// Any bits, patterns of NaN with their payloads among them.
pub fn any_bits(rng: &mut Rng, len: usize) -> Vec<f32> {
    (0..len).map(|_| if rng.one_in(4) { f32::from_bits(rng.pick(&ENTRIES)) } else { rng.bits() }).collect()
}

/// Any finite float, by its bits.
fn finite(rng: &mut Rng) -> f32 {
    loop {
        let x = rng.bits();
        if x.is_finite() {
            return x;
        }
    }
}
