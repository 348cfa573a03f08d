//! The quick tree against the other, on everything that both leave.

use reference::generate::{self, RequestCase};
use reference::{one_pass_tree, tree, Request};

type Call = fn(&Request, &mut [u32], &mut [u32], &mut [u8], &mut [u32], &mut [u32; 4]) -> u32;

/// The number, and the case with the buffers as the call leaves them.
fn left(case: &RequestCase, call: Call) -> (u32, [u32; 4], RequestCase) {
    let (mut left, mut numbers) = (case.clone(), [7; 4]);
    let number = call(
        &case.request(),
        &mut left.level,
        &mut left.address,
        &mut left.reachable,
        &mut left.cost,
        &mut numbers,
    );
    (number, numbers, left)
}

#[test]
fn both_trees_are_the_same() {
    let generated = (0..12_000).map(generate::request_case);
    let decided = (0..8_000).map(|seed| generate::round_case(seed).request);
    let exrs = (0..8_000).map(|seed| generate::exrs_next_case(seed).request);
    let full = (0..10).map(|seed| generate::largest_exrs_request(seed, 1 + seed as u32 % 2));
    let large = (0..20).map(generate::largest_request).chain(full);
    let mut rounds = [0; 3];
    for (index, case) in generated
        .chain(decided)
        .chain(exrs)
        .chain(large)
        .enumerate()
    {
        let (number, numbers, ours) = left(&case, one_pass_tree);
        let (same, again, theirs) = left(&case, tree);
        assert_eq!((number, numbers), (same, again), "case {index}");
        assert_eq!(
            (ours.level, ours.address, ours.reachable, ours.cost),
            (theirs.level, theirs.address, theirs.reachable, theirs.cost),
            "case {index}"
        );
        rounds[numbers[3] as usize] += 1;
    }
    println!("{rounds:?} refused, in round 1, in round 2");
    assert!(rounds[1] > 5_000 && rounds[2] > 2_000, "{rounds:?}");
}
