//! A lookup with skipping (document 02, E6) as a compared call: its number, its answers, its count of reads, and in tables of 0 to 1 the
//! plain lookup's answers. Then what is told of such calls.

use crate::case::{compare, guarded, number, Case, Run, Sort, GUARD};
use crate::library;
use crate::lookups::Lookup;
use oracle::{definition, expected};

/// What stands where the count goes, and on either side of it, before a call.
const OLD: u32 = 0xA5A5_5A5A;

/// The largest table that is searched for entries outside 0 to 1.
const SEARCHED: usize = 1 << 20;

#[derive(Clone)]
pub struct Counted<'a>(pub Lookup<'a>);

/// Holds a lookup with skipping, where others hold the plain one.
pub fn hold(run: &mut Run, call: Lookup) {
    run.hold(Counted(call));
}

impl Counted<'_> {
    /// What the library answers: its number, its guarded buffer, and the count between what stands beside it.
    fn made(&self) -> (u32, Vec<f32>, [u32; 3]) {
        let (call, mut buffer, mut reads) = (&self.0, guarded(self.0.answer), [OLD; 3]);
        let lent = &mut buffer[GUARD..GUARD + call.answer];
        let number = library::lookup_skipping(&call.sizes, call.n, call.m, &call.table, &call.inputs, lent, &mut reads[1]);
        (number, buffer, reads)
    }

    /// The answers of the library's plain lookup for an accepted call.
    fn plain(&self) -> Vec<f32> {
        let (call, mut answers) = (&self.0, vec![0.0; self.0.m]);
        let refusal = library::lookup(&call.sizes, call.n, call.m, &call.table, &call.inputs, &mut answers);
        assert_eq!(refusal, 0, "the plain lookup refuses an accepted call\n{}", self.shown());
        answers
    }

    /// Whether all entries of an accepted call are in 0 to 1, zeros of both signs among them.
    fn unit(&self) -> bool {
        let total = expected::total(self.0.used(), self.0.m) as usize;
        total <= SEARCHED && self.0.table[..total].iter().all(|entry| (0.0..=1.0).contains(entry))
    }

    /// In a table of 0 to 1 the answers are the plain lookup's, zeros of both signs being equal.
    fn beside_lookup(&self, answers: &[f32]) -> Option<String> {
        let plain = if self.unit() { self.plain() } else { return None };
        let place = (0..self.0.m).find(|&o| answers[o] != plain[o])?;
        Some(format!("answer {place} is {}, the plain lookup's {}, in a table of 0 to 1", number(answers[place]), number(plain[place])))
    }
}

impl Case for Counted<'_> {
    fn number(&self) -> u32 {
        self.0.number()
    }

    fn nans(&self) -> [u64; 2] {
        self.0.nans()
    }

    fn unequal(&self) -> Option<Sort> {
        self.0.unequal().map(|_| Sort::Skipping)
    }

    fn told(&self) -> Option<Told> {
        let accepted = (self.number() == 0).then_some(&self.0)?;
        let (used, inputs) = (accepted.used(), &accepted.inputs);
        let idle = (3..inputs.len()).any(|ink| definition::on_line(used[ink], inputs[ink]));
        let (buffer, plain) = (self.made().1, self.plain());
        let answers = &buffer[GUARD..GUARD + accepted.m];
        let equal = (0..accepted.m).all(|o| answers[o] == plain[o] || answers[o].is_nan() && plain[o].is_nan());
        let (reads, other_bits) = (definition::closed_count(used, inputs), !oracle::same(answers, &plain));
        Some(Told { reads, idle, unit: self.unit(), other_bits, other_numbers: !equal })
    }

    fn difference(&self) -> Option<String> {
        let (call, number, (got, buffer, [before, count, after])) = (&self.0, self.number(), self.made());
        if got != number {
            return Some(format!("the number is {got}, not {number}"));
        }
        let owed = || definition::skipping(call.used(), call.m, &call.table, &call.inputs);
        let (answers, reads) = if number == 0 { owed() } else { (Vec::new(), 0) };
        if count != reads {
            return Some(format!("the count of reads is {count}, not {reads} (it was {OLD} before), with the number {number}"));
        }
        if [before, after] != [OLD; 2] {
            return Some("what stands beside the count of reads was touched".into());
        }
        compare(&buffer, &answers).or_else(|| (number == 0).then(|| self.beside_lookup(&answers)).flatten())
    }

    fn smaller(&self, take: &mut dyn FnMut(Self) -> bool) {
        self.0.smaller(&mut |call| take(Counted(call)));
    }

    fn shown(&self) -> String {
        format!("with skipping, {}", self.0.shown())
    }
}

/// What is told of an accepted lookup with skipping.
pub struct Told {
    reads: u32,
    /// Whether an ink from the fourth on is idle: its weight is 0.
    idle: bool,
    /// Whether all entries are in 0 to 1.
    unit: bool,
    /// Whether the plain lookup's answers have other bits, NaN without its payload; and whether they are other numbers.
    other_bits: bool,
    other_numbers: bool,
}

/// How many accepted lookups with skipping there were, of each sort, and of each count of reads.
#[derive(Default)]
pub struct Tally {
    calls: u64,
    idle: u64,
    units: u64,
    units_other_bits: u64,
    other_bits: u64,
    other_numbers: u64,
    by_reads: std::collections::BTreeMap<u32, u64>,
}

impl Tally {
    pub fn add(&mut self, told: Told) {
        self.calls += 1;
        self.idle += u64::from(told.idle);
        self.units += u64::from(told.unit && told.idle);
        self.units_other_bits += u64::from(told.unit && told.other_bits);
        self.other_bits += u64::from(told.other_bits);
        self.other_numbers += u64::from(told.other_numbers);
        *self.by_reads.entry(told.reads).or_default() += 1;
    }

    /// A run without a call that only skipping answers so, in either way, or without one of the counts that there are, shows nothing.
    pub fn complete(&self) {
        let otherwise = self.other_numbers > 0 && self.other_bits > self.other_numbers;
        assert!(otherwise, "the plain lookup answers every call as the one with skipping, or every zero");
        let counts: Vec<u32> = [2, 4].into_iter().chain((0..=12).map(|k| 6 << k)).collect();
        assert!(self.by_reads.keys().eq(counts.iter()), "the counts of reads are {:?}, not {counts:?}", self.by_reads);
    }

    pub fn print(&self) {
        let Tally { calls, idle, units, units_other_bits, other_bits, .. } = self;
        println!("            {calls} lookups with skipping (E6) are accepted, {idle} of them with an idle ink from the fourth on");
        let zeros = other_bits - self.other_numbers;
        println!("            in {other_bits} of these the plain lookup answers otherwise, in {zeros} of them only in the sign of a zero");
        let told = "of these all entries are in 0 to 1, and the plain lookup's answers are equal";
        println!("            in {units} {told}, in {units_other_bits} of them with other bits");
        let by_reads: Vec<String> = self.by_reads.iter().map(|(reads, calls)| format!("{reads}: {calls}")).collect();
        println!("            by reads: {}", by_reads.join(", "));
    }
}
