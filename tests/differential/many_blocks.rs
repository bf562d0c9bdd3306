//! Table files of more than 256 blocks and of more than 65,536, where a block's number needs its second byte and its third.

use crate::case::Run;
use crate::file_tables::{entries, with_total};
use crate::files::{put_right, Read, Write};
use crate::grids::laid;
use crate::values::Rng;
use oracle::files;

pub fn all(run: &mut Run, rng: &mut Rng) {
    run.kind("table files of more than 256 and of more than 65,536 blocks, whole and damaged");
    // These need 255, 256, 257, 300 and 65,540 blocks.
    for total in [32_130, 32_256, 32_300, 37_800, 8_257_920] {
        let Some((used, m)) = (0..100).find_map(|_| with_total(rng, 15, total)) else {
            panic!("{total} entries have no layout");
        };
        let table = entries(rng, total);
        let file = files::file(&used, m, &table);
        run.hold(Write { sizes: laid(rng, &used), n: 15, m, table: table.into(), room: file.len() });
        damaged(run, rng, &file, total);
        run.hold(Read { file: file.into(), room: total });
    }
}

/// In the last block, the one before and the middle one a number with one bit changed, and its check right; a check that is wrong.
fn damaged(run: &mut Run, rng: &mut Rng, good: &[u8], total: usize) {
    let count = good.len() / files::BLOCK;
    for block in [count - 1, count - 2, count / 2] {
        for place in [0, 1, 2, 3, 508] {
            let mut file = good.to_vec();
            file[files::BLOCK * block + place] ^= 1 << rng.below(8);
            if place < 4 {
                put_right(&mut file, block);
            }
            run.hold(Read { file: file.into(), room: total });
        }
    }
}
