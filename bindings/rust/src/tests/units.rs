use super::*;

#[test]
fn values_of_one_byte_and_of_two() {
    let mut entries = [UNTOUCHED; 6];
    assert_eq!(read_units(&[0, 51, 255, 9], 1, 3, &mut entries), Ok(()));
    assert_eq!(entries, [0.0, 0.2, 1.0, UNTOUCHED, UNTOUCHED, UNTOUCHED]);
    let data = [0, 1, 1, 0, 0x33, 0x33, 0xff, 0xff, 0xff, 0xfe, 7];
    assert_eq!(read_units(&data, 2, 5, &mut entries), Ok(()));
    let expected = [1.0, 256.0, 13107.0, 65535.0, 65534.0].map(|v: f32| v / 65535.0);
    assert_eq!(entries[..5], expected);
    assert_eq!(entries[5], UNTOUCHED);
}

#[test]
fn refused_values_write_nothing() {
    let mut entries = [UNTOUCHED; 2];
    let cases = [
        (0, usize::MAX, Refusal::Precision),
        (3, 1, Refusal::Precision),
        (257, 1, Refusal::Precision),
        (1, 5, Refusal::ShortData),
        (2, 3, Refusal::ShortData),
        (2, 1 << 63, Refusal::ShortData),
        (2, usize::MAX, Refusal::ShortData),
        (1, 3, Refusal::ShortAnswer),
        (1, 4, Refusal::ShortAnswer),
    ];
    for (precision, count, refusal) in cases {
        let number = read_units(&[1; 4], precision, count, &mut entries);
        assert_eq!(number, Err(refusal), "{precision} {count}");
    }
    assert_eq!(
        read_units(&[1; 4], 2, 2, &mut entries[..1]),
        Err(Refusal::ShortAnswer)
    );
    assert_eq!(entries, [UNTOUCHED; 2]);
    assert_eq!(read_units(&[], 1, 0, &mut []), Ok(()));
}

#[test]
fn the_total_of_a_grid() {
    assert_eq!(Grid::new(17, 4, 3).total(), Ok(250_563));
    assert_eq!(Grid::of_sizes(&[2, 3], 1).total(), Ok(6));
    assert_eq!(Grid::new(4, 15, 3).total(), Ok(3_221_225_472));
    assert_eq!(Grid::new(4, 15, 4).total(), Err(Refusal::LargeTotal));
    assert_eq!(Grid::new(2, 0, 3).total(), Err(Refusal::InputInks));
}
