extern crate std;

mod clut;
mod files;
mod sizes;
mod skipping;
mod slab;
mod units;

use super::*;
use std::{string::ToString, vec, vec::Vec};

const UNTOUCHED: f32 = 7.5;

/// A table of 0 with 1 at the entries of the last node.
fn far_corner(entries: usize, m: usize) -> Vec<f32> {
    (0..entries)
        .map(|e| if e + m >= entries { 1.0 } else { 0.0 })
        .collect()
}

#[test]
fn rows_of_a_layout() {
    let rows = layout(&Grid::new(17, 4, 3)).unwrap();
    assert_eq!(rows.grid_strides[..5], [4913, 289, 17, 1, 1]);
    assert_eq!(rows.grid_filling_size[..5], [14739, 867, 51, 3, 1]);
    assert_eq!(rows.grid_scale[..5], [16.0, 16.0, 16.0, 16.0, 0.0]);
    assert_eq!(rows.grid_strides[5..], [1; 11]);
    assert_eq!(rows.grid_filling_size[5..], [1; 11]);
    assert_eq!(rows.grid_scale[5..], [0.0; 11]);
}

#[test]
fn refused_layouts() {
    let cases = [
        (Grid::new(2, 0, 3), 1),
        (Grid::new(2, 16, 3), 1),
        (Grid::new(2, usize::MAX, 0), 1),
        (Grid::new(2, 3, 0), 2),
        (Grid::new(2, 3, 16), 2),
        (Grid::new(0, 2, 1), 3),
        (Grid::new(4, 15, 4), 5),
        (Grid::new(255, 4, 2), 5),
    ];
    for (grid, number) in cases {
        assert_eq!(layout(&grid).unwrap_err().number(), number, "{grid:?}");
        assert_eq!(
            lookup(&grid, &[], &[], &mut []).unwrap_err().number(),
            number,
            "{grid:?}"
        );
        assert_eq!(
            node(&grid, &[], &[]).unwrap_err().number(),
            number,
            "{grid:?}"
        );
    }
}

#[test]
fn colours() {
    let mut answer = [UNTOUCHED; 3];
    let inputs = [
        (0.25, 0.25),
        (2.0, 1.0),
        (f32::INFINITY, 1.0),
        (f32::NEG_INFINITY, 0.0),
    ];
    for (input, colour) in inputs {
        assert_eq!(
            lookup(&Grid::new(2, 1, 1), &[0.0, 1.0], &[input], &mut answer),
            Ok(())
        );
        assert_eq!(answer, [colour, UNTOUCHED, UNTOUCHED]);
    }
    assert_eq!(
        lookup(
            &Grid::new(2, 2, 1),
            &[0.0, 1.0, 2.0, 3.0],
            &[0.5, 0.25],
            &mut answer
        ),
        Ok(())
    );
    assert_eq!(answer[0], 1.25);
    assert_eq!(
        lookup(
            &Grid::new(2, 3, 1),
            &far_corner(8, 1),
            &[0.5, 0.25, 0.75],
            &mut answer
        ),
        Ok(())
    );
    assert_eq!(answer, [0.25, UNTOUCHED, UNTOUCHED]);
}

#[test]
fn a_nan_among_the_inputs_is_refused_and_nothing_is_written() {
    let mut answer = [UNTOUCHED; 3];
    for n in 1..=15 {
        let (grid, table) = (Grid::new(1, n, 2), [0.25, 0.75]);
        for (ink, bits) in [(0, 0x7FC0_0000), (n - 1, 0xFF80_0001), (n / 2, 0x7FBF_FFFF)] {
            let mut inputs = vec![0.5; n];
            inputs[ink] = f32::from_bits(bits);
            let refused = lookup(&grid, &table, &inputs, &mut answer);
            assert_eq!(refused, Err(Refusal::NanInput), "ink {ink} of {n}");
            assert_eq!(answer, [UNTOUCHED; 3]);
            let short = lookup(&grid, &table, &inputs, &mut answer[..1]);
            assert_eq!(short, Err(Refusal::ShortAnswer));
        }
    }
}

#[test]
fn just_under_a_line_ink_five_is_blended_with_that_line() {
    let inputs = [0.0, 0.0, 0.0, 0.0, f32::from_bits(0x3EFF_FFFF)];
    for (line, bits) in [(0, 0x3380_0000), (1, 0x3F7F_FFFF), (2, 0)] {
        let mut table = vec![0.0; 243];
        table[line] = 1.0;
        let mut answer = [UNTOUCHED];
        assert_eq!(
            lookup(&Grid::new(3, 5, 1), &table, &inputs, &mut answer),
            Ok(())
        );
        assert_eq!(answer[0].to_bits(), bits, "1 at line {line}");
    }
}

#[test]
fn fifteen_inks_and_fifteen_outputs() {
    let table = far_corner(32768 * 15, 15);
    let mut answer = [UNTOUCHED; 16];
    assert_eq!(
        lookup(&Grid::new(2, 15, 15), &table, &[1.0; 15], &mut answer),
        Ok(())
    );
    assert_eq!(answer[..15], [1.0; 15]);
    assert_eq!(answer[15], UNTOUCHED);
}

#[test]
fn refused_lookups_write_nothing() {
    let grid = Grid::new(2, 1, 2);
    let table = [0.0; 4];
    let mut answer = [UNTOUCHED; 2];
    assert_eq!(
        lookup(&grid, &table[..3], &[], &mut []),
        Err(Refusal::ShortTable)
    );
    assert_eq!(
        lookup(&grid, &table, &[0.5; 2], &mut []),
        Err(Refusal::InputCount)
    );
    assert_eq!(
        lookup(&grid, &table, &[0.5], &mut answer[..1]),
        Err(Refusal::ShortAnswer)
    );
    assert_eq!(answer, [UNTOUCHED; 2]);
}

#[test]
fn a_node_is_a_part_of_the_table() {
    let grid = Grid::new(3, 2, 2);
    let table: Vec<f32> = (0..20).map(|e| e as f32).collect();
    let part = node(&grid, &table, &[1, 2]).unwrap();
    assert_eq!(part, [10.0, 11.0]);
    assert_eq!(part.as_ptr(), table[10..].as_ptr());
    assert_eq!(node(&grid, &table[..17], &[3]), Err(Refusal::ShortTable));
    assert_eq!(node(&grid, &table, &[3]), Err(Refusal::InputCount));
    assert_eq!(node(&grid, &table, &[0, 3]), Err(Refusal::OutsideGrid));
    assert_eq!(
        node(&grid, &table, &[usize::MAX, 0]),
        Err(Refusal::OutsideGrid)
    );
}

#[test]
fn weights_of_codes() {
    let cells = create_ranged_256(33).unwrap();
    assert_eq!(
        cells[0],
        Cell {
            x: 0,
            x_n: 1,
            w: 0.0
        }
    );
    assert_eq!(
        cells[128],
        Cell {
            x: 16,
            x_n: 17,
            w: 32897.0 / 524288.0
        }
    );
    assert_eq!(
        cells[255],
        Cell {
            x: 32,
            x_n: 32,
            w: 0.0
        }
    );
    assert_eq!(create_ranged_256(1).unwrap(), [Cell::default(); 256]);
    assert_eq!(create_ranged_256(0), Err(Refusal::ZeroSize));
}

#[test]
fn cubes() {
    let cells = [0.5, 0.25, 0.75].map(|w| Cell { x: 0, x_n: 1, w });
    let outside = [cells[0], cells[1], Cell { x_n: 2, ..cells[2] }];
    let mut answer = [UNTOUCHED; 4];
    let methods = [
        (pyramidal as fn(&_, _, _, &_, &mut _) -> _, 0.25),
        (prismatic, 0.125),
        (trilinear, 0.09375),
    ];
    for (method, colour) in methods {
        let cube = far_corner(24, 3);
        assert_eq!(
            method(&outside, 0, 5, &[], &mut []),
            Err(Refusal::OutputInks)
        );
        assert_eq!(method(&outside, 0, 3, &[], &mut []), Err(Refusal::ZeroSize));
        assert_eq!(
            method(&outside, 2, 3, &cube[..23], &mut []),
            Err(Refusal::ShortTable)
        );
        assert_eq!(
            method(&outside, 2, 3, &cube, &mut answer[..2]),
            Err(Refusal::ShortAnswer)
        );
        assert_eq!(
            method(&outside, 2, 3, &cube, &mut answer),
            Err(Refusal::OutsideGrid)
        );
        assert_eq!(answer, [UNTOUCHED; 4]);
        assert_eq!(method(&cells, 2, 3, &cube, &mut answer), Ok(()));
        assert_eq!(answer, [colour, colour, colour, UNTOUCHED]);
        assert_eq!(
            method(&cells, 2, 4, &far_corner(32, 4), &mut answer),
            Ok(())
        );
        assert_eq!(answer, [colour; 4]);
        answer = [UNTOUCHED; 4];
    }
}

/// The text of a number in the C header: `case K: return "TEXT";`.
fn header_text(number: &str) -> std::string::String {
    let header = include_str!("../../../include/tenahvar.h");
    let from = header.find(number).unwrap() + number.len();
    let text = header[from..].split('"').nth(1).unwrap();
    text.to_string()
}

#[test]
fn every_refusal_has_its_number_and_the_header_s_text() {
    for number in (1..=20).filter(|&number| number != 4) {
        let refusal = told(number).unwrap_err();
        assert_eq!(refusal.number(), number);
        assert!(!matches!(refusal, Refusal::Other(_)));
        let text = header_text(&std::format!("case {number}: return"));
        assert_eq!(refusal.to_string(), text);
    }
    assert_eq!(told(0), Ok(()));
}

#[test]
fn a_number_of_another_version_is_no_panic() {
    for number in [4, 21, u32::MAX] {
        let refusal = told(number).unwrap_err();
        assert_eq!(refusal, Refusal::Other(number));
        assert_eq!(refusal.number(), number);
        assert_eq!(refusal.to_string(), header_text("default: return"));
    }
}
