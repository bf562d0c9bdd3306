//! What a compared call is, how one that differs is made small, and how many of each kind were compared.

use crate::counted::{Tally, Told};
use crate::engines;
use crate::filed::{Filed, Files};
use std::time::{Duration, Instant};

/// The sorts of calls that have a size for each ink.
#[derive(Clone, Copy)]
pub enum Sort {
    Layout,
    Lookup,
    Node,
    Element,
    Slab,
    Skipping,
    File,
}

const SORTS: [&str; 7] = ["layouts", "lookups", "nodes", "elements", "slabs", "lookups with skipping", "table files"];

/// One call that the library and the oracle both answer.
pub trait Case: Sized {
    /// The number that document 01 gives.
    fn number(&self) -> u32;
    /// Of a lookup that demand 2 excepts (E4), whether the crate's answers are others; none of every other call.
    fn parted(&self) -> Option<bool> {
        None
    }
    /// Of a call that is refused for a NaN among its inputs (E8), how many of these are quiet, and how many signalling.
    fn nans(&self) -> [u64; 2] {
        [0; 2]
    }
    /// The sort of a call whose sizes in use are unequal (E5); none of every other call.
    fn unequal(&self) -> Option<Sort> {
        None
    }
    /// What is told of an accepted lookup with skipping (E6); none of every other call.
    fn told(&self) -> Option<Told> {
        None
    }
    /// What is told of a table file that is written or read (E9); none of every other call.
    fn filed(&self) -> Option<Filed> {
        None
    }
    /// What differs, in words; nothing where both agree.
    fn difference(&self) -> Option<String>;
    /// Offers simpler calls one by one until one is taken.
    fn smaller(&self, take: &mut dyn FnMut(Self) -> bool);
    /// The whole call, so that it can be made again.
    fn shown(&self) -> String;
}

/// The counts of a run. The first difference ends it.
pub struct Run {
    counts: Vec<(&'static str, u64)>,
    numbers: [u64; 21],
    /// How many calls demand 2 excepts, and in how many of them the crate's answers are others.
    pub excepted: [u64; 2],
    /// How many quiet and signalling NaNs were among the inputs of calls that were refused for them.
    nans: [u64; 2],
    /// Of each sort how many calls with unequal sizes are accepted, and how many refused.
    unequal: [[u64; 2]; 7],
    /// The accepted lookups with skipping.
    pub skipping: Tally,
    /// The table files.
    pub files: Files,
    began: Instant,
}

impl Run {
    pub fn new() -> Run {
        let (counts, skipping, files, began) = (Vec::new(), Tally::default(), Files::default(), Instant::now());
        Run { counts, numbers: [0; 21], excepted: [0; 2], nans: [0; 2], unequal: [[0; 2]; 7], skipping, files, began }
    }

    /// Opens a kind of calls; what is held from here on counts to it.
    pub fn kind(&mut self, name: &'static str) {
        self.close();
        self.counts.push((name, 0));
        self.began = Instant::now();
    }

    /// Prints the count of the open kind.
    fn close(&mut self) {
        if let Some((name, count)) = self.counts.last() {
            println!("{count:>10}  {name} ({:.1} s)", self.began.elapsed().as_secs_f64());
        }
    }

    /// Compares one call.
    #[inline]
    pub fn hold<C: Case>(&mut self, case: C) {
        self.hold_ref(&case);
    }

    #[inline]
    pub fn hold_ref<C: Case>(&mut self, case: &C) {
        if let Some(count) = self.counts.last_mut() {
            count.1 += 1;
        }
        let number = case.number();
        self.numbers[number as usize] += 1;
        if let Some(sort) = case.unequal() {
            self.unequal[sort as usize][usize::from(number != 0)] += 1;
        }
        if let Some(parted) = case.parted() {
            self.excepted[0] += 1;
            self.excepted[1] += u64::from(parted);
        }
        if number == 16 {
            self.refused(0, case.nans());
        }
        if case.difference().is_some() {
            self.fail(case);
        }
        if let Some(told) = case.told() {
            self.skipping.add(told);
        }
        if let Some(told) = case.filed() {
            self.files.add(told);
        }
    }

    /// Counts accepted calls that were compared elsewhere and agree.
    pub fn compared(&mut self, calls: u64) {
        if let Some(count) = self.counts.last_mut() {
            count.1 += calls;
        }
        self.numbers[0] += calls;
    }

    /// Counts calls that were compared elsewhere and refused for a NaN, and the quiet and signalling ones among their inputs.
    pub fn refused(&mut self, calls: u64, [quiet, signalling]: [u64; 2]) {
        if let Some(count) = self.counts.last_mut() {
            count.1 += calls;
        }
        self.numbers[16] += calls;
        self.nans = [self.nans[0] + quiet, self.nans[1] + signalling];
    }

    #[cold]
    fn fail<C: Case>(&mut self, case: &C) -> ! {
        let (kind, count) = self.counts.last().copied().unwrap_or(("", 0));
        println!("DIFFERENT at call {count} of the kind: {kind}");
        println!("found:   {}", case.difference().unwrap_or_default());
        let small = shrink(case);
        let small = small.as_ref().unwrap_or(case);
        println!("reduced: {}", small.difference().unwrap_or_default());
        println!("{}", small.shown());
        std::process::exit(1);
    }

    /// Ends the run: how many calls gave each number, how many were excepted, how many had NaN inputs or unequal sizes, and the sum.
    pub fn end(&mut self) {
        self.close();
        let told: Vec<String> = self.numbers.iter().enumerate().filter(|(_, &count)| count > 0).map(|(k, count)| format!("{k}: {count}")).collect();
        println!("            by number: {}", told.join(", "));
        let [excepted, parted] = self.excepted;
        println!("            {excepted} calls are excepted from demand 2 (E4) and held to the definition; in {parted} of them the Rust text answers otherwise");
        let [quiet, signalling] = self.nans;
        println!("            {} calls are refused for a NaN input (E8), with {quiet} quiet and {signalling} signalling ones", self.numbers[16]);
        let [accepted, refused] = [0, 1].map(|k| (0..SORTS.len()).map(|sort| format!("{} {}", SORTS[sort], self.unequal[sort][k])).collect::<Vec<_>>().join(", "));
        println!("            with unequal sizes (E5), held to the definition over coordinates: {accepted}; and refused: {refused}");
        self.skipping.print();
        self.files.print();
        println!("            both engines asked: {} lookups", engines::asked());
        println!("{:>10}  calls compared, none different", self.counts.iter().map(|c| c.1).sum::<u64>());
    }
}

/// Whether the first n of the sizes are unequal.
pub fn are_unequal(sizes: &[u8], n: usize) -> bool {
    sizes.get(..n).is_some_and(|used| !used.is_empty() && oracle::one_size(used).is_none())
}

/// Takes simpler calls as long as they still differ, for at most twenty seconds.
fn shrink<C: Case>(case: &C) -> Option<C> {
    let until = Instant::now() + Duration::from_secs(20);
    let mut small: Option<C> = None;
    loop {
        let mut next = None;
        small.as_ref().unwrap_or(case).smaller(&mut |c| {
            let taken = Instant::now() > until || c.difference().is_some();
            if taken && next.is_none() && Instant::now() <= until {
                next = Some(c);
            }
            taken
        });
        match next {
            Some(c) => small = Some(c),
            None => return small,
        }
    }
}

/// Bits that no call should leave changed: signalling NaNs, another at each place.
pub fn sentinel(place: usize) -> f32 {
    f32::from_bits(0x7FA5_0000 + place as u32)
}

/// How many sentinels stand before and after every lent buffer.
pub const GUARD: usize = 4;

/// A buffer of `len` sentinels with guards around it.
pub fn guarded(len: usize) -> Vec<f32> {
    (0..len + 2 * GUARD).map(sentinel).collect()
}

/// Compares a guarded buffer with what it should hold: the answers, then untouched sentinels. Answers that are NaN
/// agree without their payload, and zeros must agree in sign.
pub fn compare(buffer: &[f32], answers: &[f32]) -> Option<String> {
    for (place, &got) in buffer.iter().enumerate() {
        let answer = place.checked_sub(GUARD).and_then(|o| answers.get(o));
        let right = match answer {
            Some(a) => oracle::same(&[*a], &[got]),
            None => got.to_bits() == sentinel(place).to_bits(),
        };
        if !right {
            let at = place as isize - GUARD as isize;
            return Some(match answer {
                Some(a) => format!("answer {at} is {}, not {}", number(got), number(*a)),
                None => format!("entry {at} of the answer buffer was touched: {}", number(got)),
            });
        }
    }
    None
}

/// Compares a guarded buffer bit for bit with the entries that it should hold, old ones among them; the guards must stay.
pub fn compare_bits(buffer: &[f32], entries: &[f32]) -> Option<String> {
    (0..buffer.len()).find_map(|place| {
        let at = place as isize - GUARD as isize;
        let entry = place.checked_sub(GUARD).and_then(|e| entries.get(e)).copied().unwrap_or(sentinel(place));
        (buffer[place].to_bits() != entry.to_bits()).then(|| format!("entry {at} is {}, not {}", number(buffer[place]), number(entry)))
    })
}

/// A float as its bits and its value.
pub fn number(x: f32) -> String {
    format!("{:08X} ({x:e})", x.to_bits())
}

/// A list of floats; of a long one only what is not +0.0.
pub fn numbers(list: &[f32]) -> String {
    let told: Vec<String> = list
        .iter()
        .enumerate()
        .filter(|(_, x)| list.len() <= 16 || x.to_bits() != 0)
        .take(64)
        .map(|(i, x)| format!("[{i}] {}", number(*x)))
        .collect();
    format!("{} entries: {}{}", list.len(), told.join(", "), if list.len() > 16 { ", all others +0.0 or left out after 64" } else { "" })
}

/// How plain a float is: simpler calls hold plainer ones.
pub fn plainness(x: f32) -> u32 {
    match x.to_bits() {
        0 => 0,
        0x3F80_0000 => 1,
        0x3F00_0000 => 2,
        _ => 3,
    }
}
