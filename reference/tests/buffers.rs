//! What lent buffers and numbers hold after each call: untouched unless the
//! answer is 0, and untouched past the result if it is.

use reference::generate;
use std::fmt::Debug;

const CASES: u64 = 4000;

fn unchanged_from<T: PartialEq + Debug>(from: usize, before: &[T], after: &[T], seed: u64) {
    assert_eq!(before[from..], after[from..], "seed {seed}");
}

/// Where the result ends: at the start on any answer but 0.
fn result_end<const N: usize>(number: u32, numbers: [u32; N], length: usize) -> usize {
    if number == 0 {
        assert_eq!(numbers[0], 0);
        return length;
    }
    assert!(numbers[1..].iter().all(|&n| n == 0));
    0
}

#[test]
fn read_include_keeps_the_rest() {
    let plain = (0..CASES).map(|seed| (seed, generate::include_case(seed)));
    let exrs = (0..CASES).map(|seed| (seed, generate::exrs_include_case(seed)));
    for (seed, case) in plain.chain(exrs) {
        let mut after = case.clone();
        let mut numbers = [9; 3];
        let number = reference::read_include(
            &case.profile,
            case.ingress,
            &case.include,
            &mut after.domains,
            &mut after.pinned,
            &mut after.pins,
            &mut after.exrs_counts,
            &mut after.exrs,
            &mut numbers,
        );
        let end = result_end(number, numbers, numbers[1] as usize);
        unchanged_from(end, &case.domains, &after.domains, seed);
        unchanged_from(end, &case.pinned, &after.pinned, seed);
        unchanged_from(end, &case.pins, &after.pins, seed);
        unchanged_from(end, &case.exrs_counts, &after.exrs_counts, seed);
        unchanged_from(numbers[2] as usize, &case.exrs, &after.exrs, seed);
        let bytes: u32 = after.exrs_counts[..end].iter().sum();
        assert_eq!(bytes, numbers[2], "seed {seed}");
        for i in 0..end {
            assert!(after.pinned[i] <= 1 && (after.pinned[i] == 1 || after.pins[i] == 0));
        }
    }
}

#[test]
fn write_list_keeps_the_rest() {
    let plain = (0..CASES).map(|seed| (seed, generate::write_case(seed)));
    let exrs = (0..CASES).map(|seed| (seed, generate::exrs_write_case(seed)));
    for (seed, case) in plain.chain(exrs) {
        let mut out = case.out.clone();
        let mut numbers = [9; 2];
        let number = reference::write_list(
            &case.profile,
            &case.domains,
            &case.pinned,
            &case.pins,
            &case.exrs_counts,
            &case.exrs,
            &mut out,
            &mut numbers,
        );
        let end = result_end(number, numbers, numbers[1] as usize);
        unchanged_from(end, &case.out, &out, seed);
    }
}

#[test]
fn tree_keeps_the_rest() {
    for seed in 0..CASES {
        let case = generate::request_case(seed);
        let mut after = case.clone();
        let mut numbers = [9; 4];
        let number = reference::tree(
            &case.request(),
            &mut after.level,
            &mut after.address,
            &mut after.reachable,
            &mut after.cost,
            &mut numbers,
        );
        let end = result_end(number, numbers, numbers[1] as usize);
        unchanged_from(end, &case.level, &after.level, seed);
        unchanged_from(end, &case.address, &after.address, seed);
        unchanged_from(end, &case.reachable, &after.reachable, seed);
        unchanged_from(end, &case.cost, &after.cost, seed);
    }
}

#[test]
fn first_and_next_keep_the_rest() {
    for seed in 0..CASES {
        let case = generate::next_case(seed);
        let request = case.request.request();
        let (mut path, mut numbers) = (case.request.path.clone(), [9; 4]);
        let number = reference::first(&request, &mut path, &mut numbers);
        check_path(&case.request.path, &path, number, numbers, None, seed);
        let (mut path, mut numbers) = (case.path.clone(), [9; 4]);
        let number = reference::next(&request, &case.given, &mut path, &mut numbers);
        check_path(&case.path, &path, number, numbers, Some(&case.given), seed);
    }
}

fn check_path(
    before: &[u32],
    after: &[u32],
    number: u32,
    numbers: [u32; 4],
    given: Option<&Vec<u32>>,
    seed: u64,
) {
    // An accepted given list is as long as a path; for first, look at nothing.
    let length = given.map_or(before.len(), Vec::len);
    let end = result_end(number, numbers, length);
    unchanged_from(end, before, after, seed);
    if number == 0 {
        // The machine's own conversion, which rounds as document 02 asks.
        assert_eq!(numbers[2], (numbers[1] as f32).to_bits(), "seed {seed}");
        if let Some(given) = given {
            assert!(after[..end] > given[..], "seed {seed}");
        }
    }
}
