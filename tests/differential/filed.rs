//! What is told of table files (document 02, E9): how many were written and read, how many of each refusal, and of which block.

use oracle::expected;

/// What is told of one call.
pub struct Filed {
    pub reading: bool,
    pub number: u32,
    /// Whether the refusal is of a later block than block 0; of 17, whether it is of the whole length.
    pub later: bool,
    /// How many quiet and signalling NaNs were among the entries of an accepted call.
    pub nans: [u64; 2],
}

/// How many quiet and signalling NaNs there are.
pub fn nans(entries: &[f32]) -> [u64; 2] {
    entries.iter().filter(|&&entry| expected::is_nan(entry)).fold([0; 2], |[quiet, signalling], entry| {
        let is_quiet = entry.to_bits() >> 22 & 1 == 1;
        [quiet + u64::from(is_quiet), signalling + u64::from(!is_quiet)]
    })
}

/// The counts of a run.
#[derive(Default)]
pub struct Files {
    /// By number, 0 for those that are accepted.
    written: [u64; 21],
    read: [u64; 21],
    /// Of the reads refused with 17 to 20, how many of block 0, and how many of a later block.
    blocks: [[u64; 2]; 4],
    /// Quiet and signalling NaNs, written and read.
    nans: [[u64; 2]; 2],
}

impl Files {
    pub fn add(&mut self, told: Filed) {
        let counts = if told.reading { &mut self.read } else { &mut self.written };
        counts[told.number as usize] += 1;
        if let Some(place) = told.number.checked_sub(17) {
            self.blocks[place as usize][usize::from(told.later)] += 1;
        }
        let nans = &mut self.nans[usize::from(told.reading)];
        *nans = [nans[0] + told.nans[0], nans[1] + told.nans[1]];
    }

    /// A run without one of these shows nothing of it.
    pub fn complete(&self) {
        for number in [0, 1, 2, 3, 5, 6, 8] {
            assert!(self.written[number] > 0, "no write has the number {number}");
        }
        for number in [0, 1, 2, 3, 5, 8, 17, 18, 19, 20] {
            assert!(self.read[number] > 0, "no read has the number {number}");
        }
        let each = self.blocks.iter().flatten().all(|&count| count > 0);
        assert!(each, "some refusal was not met in block 0 and in a later one: {:?}", self.blocks);
        let nans = self.nans.iter().flatten().all(|&count| count > 0);
        assert!(nans, "no quiet or no signalling NaN was written or read: {:?}", self.nans);
    }

    pub fn print(&self) {
        let told = |counts: &[u64; 21]| {
            let list: Vec<String> = (0..21).filter(|&k| counts[k] > 0).map(|k| format!("{k}: {}", counts[k])).collect();
            list.join(", ")
        };
        println!("            table files (E9) written, by number: {}", told(&self.written));
        println!("            table files read, by number: {}", told(&self.read));
        let blocks = (17..21).zip(self.blocks).map(|(number, [first, later])| format!("{number}: {first} and {later}"));
        let blocks = blocks.collect::<Vec<_>>().join(", ");
        println!("            of these refused for block 0, and for a later block or the whole length: {blocks}");
        let [written, read] = self.nans.map(|[quiet, signalling]| format!("{quiet} quiet, {signalling} signalling"));
        println!("            NaN entries written: {written}; read: {read}");
    }
}
