//! The crate's stride rule with unequal sizes beside ICC.1's (document 02, E5): for ink i the crate multiplies the first n−i−1 sizes, ICC.1 has those after i.

use crate::case::Run;
use crate::grids::padded;
use crate::lookups::Lookup;
use oracle::{expected, Lut};

/// Where the crate's strides put each node of two inks of these sizes with one output, in ICC.1's order.
fn places(sizes: [u8; 2]) -> Vec<([usize; 2], usize)> {
    let [first, second] = [0, 1].map(|ink| oracle::layout(padded(&sizes), 2, 1).grid_strides[ink] as usize);
    let nodes = (0..sizes[0] as usize).flat_map(|a| (0..sizes[1] as usize).map(move |b| [a, b]));
    nodes.map(|node| (node, node[0] * first + node[1] * second)).collect()
}

/// The crate's own answer at a corner in a table of 0, 1, 2, ..; none where its text panics.
fn rust_at(sizes: [u8; 2], inputs: [f32; 2]) -> Option<f32> {
    let hook = std::panic::take_hook();
    std::panic::set_hook(Box::new(|_| {}));
    let answer = std::panic::catch_unwind(|| {
        let mut answer = [0.0];
        Lut::of_sizes(padded(&sizes), 2, 1).lookup(&[0.0, 1.0, 2.0, 3.0, 4.0, 5.0], &inputs, &mut answer);
        answer[0]
    });
    std::panic::set_hook(hook);
    answer.ok()
}

/// Sizes 2,3 and 3,2: with the crate's strides two nodes of the first share an entry, and two of the second lie outside; with ICC.1's neither happens.
pub fn rule(run: &mut Run) {
    run.kind("lookups at every node of the sizes 2,3 and 3,2 (document 02, E5)");
    let places = [[2, 3], [3, 2]].map(places);
    let shared = |place: usize| places[0].iter().filter(|(_, p)| *p == place).map(|(node, _)| *node).collect::<Vec<_>>();
    let outside: Vec<_> = places[1].iter().filter(|(_, place)| *place >= 6).copied().collect();
    assert_eq!(shared(2), [[0, 2], [1, 0]]);
    assert_eq!(outside, [([2, 0], 6), ([2, 1], 7)]);
    assert_eq!([[0.0, 1.0], [1.0, 0.0]].map(|corner| rust_at([2, 3], corner)), [Some(2.0), Some(2.0)], "the crate's text at the nodes that share entry 2");
    assert_eq!([[0.0, 1.0], [1.0, 0.0]].map(|corner| rust_at([3, 2], corner)), [Some(1.0), None], "the crate's text at a node outside the table");
    let table: Vec<f32> = (0..6).map(|i| i as f32).collect();
    for (sizes, strides) in [([2, 3], [3, 1]), ([3, 2], [2, 1])] {
        assert_eq!(expected::record(&padded(&sizes), 2, 1)[..2], strides, "document 02's strides");
        for (node, entry) in self::places(sizes).into_iter().map(|(node, _)| node).zip(&table) {
            let inputs = [0, 1].map(|ink| node[ink] as f32 / f32::from(sizes[ink] - 1));
            assert_eq!(oracle::lookup(&sizes, 1, &table, &inputs), [*entry]);
            run.hold(Lookup::good(&sizes, 1, &table, &inputs));
        }
    }
    println!(
        "            the Rust text's strides, m 1: with sizes 2,3 the nodes {:?} share entry 2; with 3,2 the nodes {outside:?} lie outside 6 entries, and its lookup there panics",
        shared(2)
    );
}
