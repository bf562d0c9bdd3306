//! Cases 1 and 13: a lookup, and the one with skipping (document 02, E6). Both are asked alike.

use crate::list::{plain, Asked, List, Table, ROOM};
use oracle::{definition, expected};

/// How a lookup of the list is asked: plainly, or with skipping.
pub type Ask = fn(&mut List, Asked, &Table, &[f32], usize);

/// A call as it is asked, its number and its buffer; the sizes in use and m where it is accepted.
struct Call {
    number: u32,
    used: Option<(Vec<u8>, usize)>,
    entries: Vec<f32>,
    inputs: Vec<f32>,
    buffer: Vec<u32>,
}

impl Call {
    /// The buffer afterwards.
    fn set(&mut self, answers: &[f32]) {
        self.buffer.iter_mut().zip(answers).for_each(|(word, a)| *word = plain(a.to_bits()));
    }
}

impl List {
    /// Lists what is asked, and counts it.
    fn call(&mut self, kind: u32, asked: Asked, table: &Table, inputs: &[f32], answer: usize) -> Call {
        let inputs: Vec<u32> = inputs.iter().map(|x| plain(x.to_bits())).collect();
        let (text, buffer) = (table.text(), List::buffer(answer));
        self.asks(kind, &[&asked.words(), &text, &[inputs.len() as u32], &inputs, &[answer as u32], &buffer]);
        let (entries, record) = (table.entries(), asked.record());
        self.entries += entries.len();
        self.count_unequal(kind as usize, &record);
        assert!(entries.len() <= ROOM);
        let inputs: Vec<f32> = inputs.iter().map(|&b| f32::from_bits(b)).collect();
        let number = expected::record_lookup(&record, entries.len(), &inputs, answer);
        self.nans += usize::from(number == 16);
        let used = (number == 0).then(|| expected::accepted(&record).expect("an accepted record"));
        Call { number, used, entries, inputs, buffer }
    }

    /// 1: a lookup.
    pub fn lookup(&mut self, asked: Asked, table: &Table, inputs: &[f32], answer: usize) {
        let mut call = self.call(1, asked, table, inputs, answer);
        if let Some((sizes, m)) = call.used.take() {
            if let Some(parted) = oracle::parted(&sizes, m, &call.entries, &call.inputs) {
                self.excepted[0] += 1;
                self.excepted[1] += usize::from(parted);
            }
            call.set(&oracle::lookup(&sizes, m, &call.entries, &call.inputs));
        }
        self.answers(Some(call.number), call.buffer);
    }

    /// 13: a lookup with skipping, and its reads.
    pub fn skipping(&mut self, asked: Asked, table: &Table, inputs: &[f32], answer: usize) {
        let (mut call, mut reads) = (self.call(13, asked, table, inputs, answer), 0);
        if let Some((sizes, m)) = call.used.take() {
            let (answers, made) = definition::skipping(&sizes, m, &call.entries, &call.inputs);
            let same = oracle::same(&answers, &definition::lookup(&sizes, m, &call.entries, &call.inputs));
            self.skipping = [self.skipping[0] + 1, self.skipping[1] + usize::from(!same)];
            call.set(&answers);
            reads = made;
        }
        self.answers(Some(call.number), std::iter::once(reads).chain(call.buffer));
    }
}
