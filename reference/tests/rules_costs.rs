//! The rules for wide costs (document 02's request [4]): their limit, totals that
//! are no floats, and bounds beside them.

use crate::common;
use common::rows::row;
use common::*;
use reference::generate;
use reference::series::{reference_series, series, Call};
use reference::{one_pass_tree, Request};

/// What first gives on a row with a bound, if one counts.
fn first_on(costs: &[u32], bound_bits: Option<u32>) -> (u32, [u32; 4]) {
    let (profile, include) = row(costs);
    let request = Request {
        destination: S + costs.len() as u32,
        bound_counts: bound_bits.is_some(),
        bound_bits: bound_bits.unwrap_or(0),
        ..ask(&profile, &include)
    };
    let (number, numbers, _) = first(&request, 17);
    (number, numbers)
}

#[test]
fn the_limit_is_24_bits() {
    for (cost, verdict) in [
        (65_535, (0, 0)),
        (65_536, (0, 0)),
        (16_777_214, (0, 0)),
        (16_777_215, (0, 0)),
        (16_777_216, (17, 4)),
        (16_777_217, (17, 4)),
        (0x8000_0000, (17, 4)),
        (u32::MAX, (17, 4)),
    ] {
        // The second of three hops, after three domain records.
        let (profile, _) = row(&[1, cost, 16_777_215]);
        assert_eq!(check(&profile), verdict, "{cost}");
    }
    for bit in 0..32 {
        let (profile, _) = row(&[1 << bit]);
        let verdict = if bit < 24 { (0, 0) } else { (17, 1) };
        assert_eq!(check(&profile), verdict, "bit {bit}");
    }
}

#[test]
fn the_float_of_a_total_is_the_nearest() {
    const MOST: u32 = 16_777_215;
    for (costs, total, bits) in [
        (&[MOST][..], 16_777_215, 0x4B7F_FFFF),
        (&[MOST, 1], 16_777_216, 0x4B80_0000),
        (&[MOST, 2], 16_777_217, 0x4B80_0000),
        (&[3, MOST], 16_777_218, 0x4B80_0001),
        (&[4, MOST], 16_777_219, 0x4B80_0002),
        (&[MOST, MOST], 33_554_430, 0x4BFF_FFFF),
        (&[MOST, 1, MOST], 33_554_431, 0x4C00_0000),
        (&[MOST, 4, MOST], 33_554_434, 0x4C00_0000),
        (&[MOST, 5, MOST], 33_554_435, 0x4C00_0001),
        (&[8, MOST, MOST], 33_554_438, 0x4C00_0002),
        (&[MOST; 16], 268_435_440, 0x4D7F_FFFF),
    ] {
        let expected = (0, [0, total, bits, 1]);
        assert_eq!(first_on(costs, None), expected, "{costs:?}");
    }
    let mut costs = [MOST; 16];
    costs[7] -= 8;
    let expected = (0, [0, 268_435_432, 0x4D7F_FFFE, 1]);
    assert_eq!(first_on(&costs, None), expected);
}

#[test]
fn the_bound_is_held_against_the_total() {
    let down = [16_777_215, 2];
    let up = [16_777_215, 4];
    let found = |total, bits| (0, [0, total, bits, 1]);
    let none = (1, [0; 4]);
    // 16,777,217 has the float 4B800000, which is less.
    assert_eq!(first_on(&down, Some(0x4B80_0000)), none);
    assert_eq!(
        first_on(&down, Some(0x4B80_0001)),
        found(16_777_217, 0x4B80_0000)
    );
    // 16,777,219 has the float 4B800002, which is more.
    assert_eq!(first_on(&up, Some(0x4B80_0001)), none);
    assert_eq!(
        first_on(&up, Some(0x4B80_0002)),
        found(16_777_219, 0x4B80_0002)
    );
}

/// S to Z by P or by Q, for these costs and 16,777,215 more.
fn by_p_or_q(p: u32, q: u32) -> Vec<u8> {
    let domains = [domain(64496, 0, &[]), domain(64497, 0, &[])];
    let hops = [
        hop(0, 1, S, P, p, B100),
        hop(0, 1, S, Q, q, B100),
        hop(1, 1, P, Z, 16_777_215, B100),
        hop(1, 1, Q, Z, 16_777_215, B100),
    ];
    file(0, &domains, &hops)
}

#[test]
fn paths_of_one_float_and_two_totals() {
    // 33,554,399 to 33,554,401 all have the float 4BFFFFF0, 33,554,400.
    for (p, q, listed) in [
        (16_777_184, 16_777_184, &[P, Q][..]),
        (16_777_184, 16_777_185, &[P]),
        (16_777_185, 16_777_184, &[Q]),
        (16_777_184, 16_777_186, &[P]),
        (16_777_186, 16_777_184, &[Q]),
    ] {
        let profile = by_p_or_q(p, q);
        let request = ask(&profile, &SHORT[..4]);
        assert_eq!(first(&request, 3).1, [0, 33_554_399, 0x4BFF_FFF0, 1]);
        let expected: Vec<_> = listed
            .iter()
            .map(|&node| (vec![S, node, Z], 33_554_399, 1))
            .collect();
        assert_eq!(listing(&request, 3), expected);
    }
}

/// P is desired away, so that the first round has the way by Q alone. Its total
/// is 33,554,401, of float 4BFFFFF0.
#[test]
fn the_round_is_chosen_by_the_total() {
    let profile = by_p_or_q(16_777_180, 16_777_186);
    let exclude = [0x81, 8, 0xC0, 0, 2, 11, 32, 1];
    let found = |bound_bits| {
        let request = Request {
            exclude: &exclude,
            bound_counts: true,
            bound_bits,
            ..ask(&profile, &SHORT[..4])
        };
        let round = tree(&request).2;
        let (number, numbers, path) = first(&request, 3);
        let calls = [Call::First, Call::Next];
        let (mut run, mut book) = (vec![vec![OLD; 3]; 2], vec![vec![OLD; 3]; 2]);
        let outcomes = series(&request, &calls, &mut run);
        assert_eq!(outcomes, reference_series(&request, &calls, &mut book));
        assert_eq!((run[0].clone(), &run), (path.clone(), &book));
        (number, numbers, path[1], round)
    };
    let by_q = (0, [0, 33_554_401, 0x4BFF_FFF0, 1], Q, 1);
    assert_eq!(found(0x4BFF_FFF1), by_q);
    let by_p = (0, [0, 33_554_395, 0x4BFF_FFEE, 2], P, 2);
    assert_eq!(found(0x4BFF_FFF0), by_p);
    assert_eq!(found(0x4BFF_FFEE), by_p);
    assert_eq!(found(0x4BFF_FFED), (1, [0; 4], OLD, 2));
}

#[test]
fn the_largest_profile_up_to_the_limit() {
    for seed in 0..10 {
        let (narrow, wide) = (
            generate::largest_request(seed),
            generate::largest_wide_request(seed),
        );
        assert_eq!(check(&wide.profile), (0, 0));
        let small = first(&narrow.request(), 17);
        let (number, numbers, path) = first(&wide.request(), 17);
        // 15 times 16,777,212 and 16,777,204.
        let total = 268_435_384 + small.1[1];
        assert_eq!((number, numbers[1], &path), (0, total, &small.2));
        let float = f64::from(f32::from_bits(numbers[2]));
        assert!(float != f64::from(total) && (float - f64::from(total)).abs() <= 8.0);
        // One float less and there is no path any more.
        let request = Request {
            bound_bits: wide.bound_bits - 1,
            ..wide.request()
        };
        assert_eq!(first(&request, 17).0, 1);
    }
}

/// All the ways to work a request out agree on wide costs too.
#[test]
fn generated_requests() {
    let (mut inexact, mut rounds) = (0, [0; 3]);
    for seed in 0..4_000 {
        let case = generate::wide_case(seed).request;
        let request = case.request();
        let (entries, tally, round) = tree(&request);
        let (mut left, mut numbers) = (case.clone(), [7; 4]);
        left.level.resize(300, 0);
        left.address.resize(300, 0);
        left.reachable.resize(300, 0);
        left.cost.resize(300, 0);
        one_pass_tree(
            &request,
            &mut left.level,
            &mut left.address,
            &mut left.reachable,
            &mut left.cost,
            &mut numbers,
        );
        assert_eq!(numbers, [0, entries.len() as u32, tally, round]);
        let costs: Vec<u32> = entries.iter().map(|entry| entry.3).collect();
        assert_eq!(left.cost[..costs.len()], costs, "seed {seed}");
        let (number, numbers, _) = first(&request, 17);
        if number == 0 {
            assert_eq!((numbers[1], numbers[3]), (entries[0].3, round));
            assert_eq!(numbers[2], (numbers[1] as f32).to_bits(), "seed {seed}");
            let float = f64::from(f32::from_bits(numbers[2]));
            inexact += usize::from(float != f64::from(numbers[1]));
        }
        rounds[round as usize] += 1;
    }
    println!("\nwide costs: {inexact} totals that are no floats, rounds {rounds:?}");
    assert!(inexact > 800 && rounds[1] > 800 && rounds[2] > 400);
}
