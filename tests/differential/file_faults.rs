//! Table files with one fault, two and three of every choice, so that the order of the refusals shows: of block 0, the layout, the whole
//! length, the other blocks and the entry buffer.

use crate::case::Run;
use crate::file_tables::file;
use crate::files::{put_right, Read};
use crate::values::Rng;
use oracle::{expected, files};

/// The place of a block that has a fault.
#[derive(Clone, Copy)]
enum Place {
    First,
    Next,
    Middle,
    Last,
}

impl Place {
    fn of(self, blocks: usize) -> usize {
        match self {
            Place::First => 0,
            Place::Next => 1,
            Place::Middle => blocks / 2,
            Place::Last => blocks - 1,
        }
    }
}

const PLACES: [Place; 4] = [Place::First, Place::Next, Place::Middle, Place::Last];

/// One fault. Those of the contents stand first, then the checks, then the length and the buffer: so they are made.
#[derive(Clone, Copy)]
enum Fault {
    Total,
    ZeroSize,
    Outputs(u8),
    Inks(u8),
    /// n 0 and no sizes.
    NoInks,
    UnusedSize,
    HeadFilling,
    /// The filling of the last block, where it has one: its first word or its last.
    Filling(bool),
    Number(Place),
    Check(Place),
    Length(isize),
    UnderBlock(usize),
    Room(usize),
}

fn faults() -> Vec<Fault> {
    let mut list = vec![Fault::Total, Fault::ZeroSize, Fault::Outputs(0), Fault::Outputs(16)];
    list.extend([0, 16, 17, 255].map(Fault::Inks));
    list.extend([Fault::NoInks, Fault::UnusedSize, Fault::HeadFilling, Fault::Filling(false), Fault::Filling(true)]);
    list.extend(PLACES.map(Fault::Number));
    list.extend(PLACES.map(Fault::Check));
    list.extend([-512, -1, 1, 512].map(Fault::Length));
    list.extend([Fault::UnderBlock(511), Fault::UnderBlock(0), Fault::Room(1), Fault::Room(usize::MAX)]);
    list
}

/// Makes a fault of the contents; that block's check is put right.
fn spoil(rng: &mut Rng, file: &mut [u8], total: usize, fault: Fault) {
    let (n, last) = (file[4] as usize, file.len() / files::BLOCK - 1);
    match fault {
        Fault::Total => {
            file[4] = 15;
            file[6..21].fill(255);
        }
        Fault::ZeroSize => file[6 + rng.below(n.clamp(1, 16))] = 0,
        Fault::Outputs(m) => file[5] = m,
        Fault::Inks(n) => file[4] = n,
        Fault::NoInks => {
            file[4] = 0;
            file[6..22].fill(0);
        }
        Fault::UnusedSize => file[rng.within(6 + n.min(15), 21)] = rng.within(1, 255) as u8,
        Fault::HeadFilling => file[rng.within(22, 507)] = rng.within(1, 255) as u8,
        Fault::Filling(end) if total % 126 != 0 => {
            let from = 512 * last + 4 + 4 * (total % 126);
            file[if end { 512 * last + 507 } else { from + rng.below(4) }] = rng.pick(&[1, 0x80]);
            put_right(file, last);
        }
        Fault::Number(place) => {
            let block = place.of(last + 1);
            file[512 * block + rng.below(4)] ^= 1 << rng.below(8);
            put_right(file, block);
        }
        _ => {}
    }
    put_right(file, 0);
}

/// A file with these faults.
fn faulty(rng: &mut Rng, good: &[u8], total: usize, faults: &[Fault]) -> Read<'static> {
    let (mut file, mut room) = (good.to_vec(), total);
    faults.iter().for_each(|&fault| spoil(rng, &mut file, total, fault));
    for &fault in faults {
        match fault {
            Fault::Check(place) => {
                let at = 512 * place.of(good.len() / files::BLOCK) + rng.within(508, 511);
                file[at] ^= 1 << rng.below(8);
            }
            Fault::Length(more) => file.resize_with(file.len().saturating_add_signed(more), || rng.next() as u8),
            Fault::UnderBlock(length) => file.truncate(length),
            Fault::Room(less) => room = total.saturating_sub(less),
            _ => {}
        }
    }
    Read { file: file.into(), room }
}

pub fn all(run: &mut Run, rng: &mut Rng, long: bool) {
    run.kind("table files with one to three faults of every choice");
    let list = faults();
    let grids: [(&[u8], usize); 7] =
        [(&[2], 1), (&[126], 1), (&[127], 1), (&[7, 3, 4], 3), (&[11, 23], 2), (&[3, 1, 5, 1, 7, 1, 4], 1), (&[1; 15], 15)];
    for (sizes, m) in grids.into_iter().flat_map(|grid| vec![grid; if long { 24 } else { 3 }]) {
        let (good, total) = (file(rng, sizes, m), expected::total(sizes, m) as usize);
        for first in 0..list.len() {
            run.hold(faulty(rng, &good, total, &[list[first]]));
            for second in first + 1..list.len() {
                run.hold(faulty(rng, &good, total, &[list[first], list[second]]));
                for third in second + 1..list.len() {
                    run.hold(faulty(rng, &good, total, &[list[first], list[second], list[third]]));
                }
            }
        }
    }
}
