//! The rules for requests, the tree and the paths, on profile W.

use crate::common;
use common::*;
use reference::Request;

/// Number and place of all three calls, which make the same checks.
fn refusal(request: &Request) -> (u32, u32) {
    let (number, numbers, _) = first(request, 4);
    assert_eq!(numbers[1..], [0; 3]);
    let (same, again, _) = next(request, &[0; 4], 4);
    assert_eq!((same, again), (number, numbers));
    let mut tree_numbers = [9; 4];
    let (mut level, mut address, mut cost) = ([0; 5], [0; 5], [0; 5]);
    let tree = reference::tree(
        request,
        &mut level,
        &mut address,
        &mut [0; 5],
        &mut cost,
        &mut tree_numbers,
    );
    assert_eq!((tree, tree_numbers), (number, numbers));
    (number, numbers[0])
}

#[test]
fn ingress_then_floats_then_lists() {
    let w = profile_w();
    let long = vec![0; 1025];
    let mut request = ask(&w, &long);
    request.exclude = &long;
    request.ingress = 3;
    request.bandwidth_bits = 0x7F80_0000;
    request.bound_counts = true;
    request.bound_bits = 0x8000_0000;
    assert_eq!(refusal(&request), (20, 0));
    request.ingress = 2;
    assert_eq!(refusal(&request), (21, 0));
    request.bandwidth_bits = 0;
    assert_eq!(refusal(&request), (21, 1));
    request.bound_counts = false;
    assert_eq!(refusal(&request), (22, 0));
    request.include = &[];
    assert_eq!(refusal(&request), (22, 1));
    request.profile = &w[..11];
    assert_eq!(refusal(&request), (10, 0));
}

#[test]
fn float_bits_out_of_range() {
    let w = profile_w();
    for bits in [
        0x7F80_0000,
        0x7F80_0001,
        0x7FC0_0000,
        0x8000_0000,
        0xBF80_0000,
        u32::MAX,
    ] {
        let mut request = ask(&w, &SHORT);
        request.bandwidth_bits = bits;
        assert_eq!(refusal(&request), (21, 0));
        request.bandwidth_bits = 0;
        request.bound_bits = bits;
        assert_eq!(first(&request, 4).0, 0, "a bound that doesn't count");
        request.bound_counts = true;
        assert_eq!(refusal(&request), (21, 1));
    }
}

#[test]
fn a_bound_of_any_exact_value() {
    let w = profile_w();
    for (bits, admitted) in [
        (0x4160_0000, true),  // 14
        (0x415F_FFFF, false), // just below
        (0x4160_0001, true),
        (0, false),
        (1, false),
        (0x7F7F_FFFF, true),
    ] {
        let mut request = ask(&w, &SHORT);
        request.bound_counts = true;
        request.bound_bits = bits;
        assert_eq!(first(&request, 4).0, u32::from(!admitted), "{bits:x}");
    }
}

#[test]
fn a_total_of_0_is_within_a_bound_of_0() {
    let profile = file(0, &[domain(64496, 0, &[])], &[hop(0, 0, S, Z, 0, 0)]);
    let mut request = ask(&profile, &[]);
    request.bandwidth_bits = 0;
    request.bound_counts = true;
    assert_eq!(first(&request, 2), (0, [0, 0, 0, 1], vec![S, Z]));
}

/// The addresses of the entries that can be left for the destination.
fn reached(exclude: &[u8]) -> Vec<u32> {
    let w = profile_w();
    let mut request = ask(&w, &SHORT);
    request.exclude = exclude;
    let (entries, tally, round) = tree(&request);
    assert_eq!(
        (entries.len(), tally, round),
        (5, 8, 1),
        "exclusions take no entry away"
    );
    entries.iter().filter(|e| e.2 == 1).map(|e| e.1).collect()
}

#[test]
fn what_an_exclusion_spoils() {
    assert_eq!(reached(&[]), [S, P, Q, T, U]);
    assert_eq!(
        reached(&[0x20, 4, 0xFB, 0xF0]),
        [P, Q, T, U],
        "the first domain"
    );
    assert_eq!(reached(&[0x20, 4, 0xFB, 0xF1]), [T, U], "the second");
    assert_eq!(reached(&[5, 8, 9, 9, 0, 0, 0xFB, 0xF2]), [0; 0], "the last");
    assert_eq!(
        reached(&[1, 8, 0xC0, 0, 2, 1, 32, 1]),
        [P, Q, T, U],
        "the source"
    );
    assert_eq!(
        reached(&[1, 8, 0xC0, 0, 2, 99, 32, 1]),
        [0; 0],
        "the destination"
    );
    assert_eq!(reached(&[1, 8, 0xC0, 0, 2, 21, 32, 1]), [S, P, Q, U], "T");
    assert_eq!(
        reached(&[0x81, 8, 0xC0, 0, 2, 21, 32, 1]),
        [S, P, Q, U],
        "X set"
    );
}

#[test]
fn prefixes_of_every_length() {
    assert_eq!(reached(&[1, 8, 1, 2, 3, 4, 0, 1]), [0; 0], "every address");
    assert_eq!(
        reached(&[1, 8, 0xFF, 2, 3, 4, 1, 1]),
        [0; 0],
        "the upper half"
    );
    assert_eq!(
        reached(&[1, 8, 0x7F, 2, 3, 4, 1, 1]),
        [S, P, Q, T, U],
        "the lower half"
    );
    // 192.0.2.20/31 holds T (.21), .22/31 holds U; bits after it are ignored.
    assert_eq!(reached(&[1, 8, 0xC0, 0, 2, 20, 31, 1]), [S, P, Q, U]);
    assert_eq!(reached(&[1, 8, 0xC0, 0, 2, 23, 31, 1]), [S, P, Q, T]);
    assert_eq!(
        reached(&[1, 8, 0xC0, 0, 2, 8, 29, 1]),
        [T, U],
        "P and Q, so S too"
    );
}

#[test]
fn excluding_what_the_profile_lacks() {
    assert_eq!(reached(&[0x20, 4, 0, 1]), [S, P, Q, T, U]);
    assert_eq!(
        reached(&[6, 8, 0, 0, 0, 0, 0, 0]),
        [S, P, Q, T, U],
        "no area is not area 0"
    );
    assert_eq!(reached(&[7, 8, 1, 0, 0, 0, 0, 0]), [S, P, Q, T, U]);
    assert_eq!(reached(&[1, 8, 9, 9, 9, 9, 32, 1]), [S, P, Q, T, U]);
}

#[test]
fn an_excluded_area_is_excluded_in_every_as() {
    let area = [0, 0, 0, 7];
    let domains = [
        domain(64496, 1, &area),
        domain(64497, 1, &area),
        domain(64498, 2, &area),
    ];
    let hops = [
        hop(0, 0, S, Z, 1, B100),
        hop(1, 1, S, Z, 1, B100),
        hop(2, 2, S, Z, 1, B100),
    ];
    let profile = file(0, &domains, &hops);
    for (ingress, number) in [(0, 1), (1, 1), (2, 0)] {
        let mut request = ask(&profile, &[]);
        request.ingress = ingress;
        request.exclude = &[6, 8, 3, 3, 0, 0, 0, 7];
        assert_eq!(first(&request, 2).0, number, "domain {ingress}");
    }
}

#[test]
fn form_of_an_exclude_list() {
    let w = profile_w();
    for (list, number, place) in [
        (&[1u8, 8, 0, 0, 0, 0, 33, 1][..], 26, 0),
        (&[1, 8, 0, 0, 0, 0, 32, 0], 26, 0),
        (&[1, 8, 0, 0, 0, 0, 32, 2], 26, 0),
        (&[0x84, 8, 0, 0], 24, 0),
        (&[0x20, 4, 0, 9, 0x87, 8, 0, 0], 26, 4),
        (&[0x20, 4, 0, 9, 0x85, 4, 0, 0], 25, 4),
        (&[0xA0, 4, 0, 9, 0], 23, 4),
    ] {
        let mut request = ask(&w, &SHORT);
        request.exclude = list;
        assert_eq!(refusal(&request), (number, place), "{list:?}");
    }
}

#[test]
fn an_entry_constraint_in_the_tree() {
    // P pinned for the second domain: Q stays listed, but can't be left.
    let w = profile_w();
    let include = [
        1, 8, 0xC0, 0, 2, 11, 32, 0, 0x20, 4, 0xFB, 0xF1, 0x20, 4, 0xFB, 0xF2,
    ];
    let expected = vec![
        (0, S, 1, 14),
        (1, P, 1, 4),
        (1, Q, 0, 0),
        (2, T, 1, 2),
        (2, U, 1, 3),
    ];
    assert_eq!(tree(&ask(&w, &include)), (expected, 8, 1));
    // One that is no entry node at all.
    let include = [
        1, 8, 9, 9, 9, 9, 32, 0, 0x20, 4, 0xFB, 0xF1, 0x20, 4, 0xFB, 0xF2,
    ];
    let expected = vec![
        (0, S, 0, 0),
        (1, P, 0, 0),
        (1, Q, 0, 0),
        (2, T, 1, 2),
        (2, U, 1, 3),
    ];
    assert_eq!(tree(&ask(&w, &include)), (expected, 8, 1));
}

#[test]
fn the_tree_lists_entries_whatever_their_bandwidth() {
    let w = profile_w();
    let mut request = ask(&w, &SHORT);
    request.bandwidth_bits = 0x447A_0001;
    let expected = vec![
        (0, S, 0, 0),
        (1, P, 0, 0),
        (1, Q, 0, 0),
        (2, T, 0, 0),
        (2, U, 0, 0),
    ];
    assert_eq!(tree(&request), (expected, 8, 1));
    assert_eq!(first(&request, 4).0, 1);
}

#[test]
fn the_tally_counts_the_steps_of_the_sequence_only() {
    let w = profile_w();
    let mut request = ask(&w, &SHORT[..4]);
    assert_eq!(
        tree(&request),
        (vec![(0, S, 0, 0), (1, P, 0, 0), (1, Q, 0, 0)], 2, 1)
    );
    request.include = &[];
    request.ingress = 2;
    request.source = T;
    assert_eq!(tree(&request), (vec![(0, T, 1, 2)], 2, 1));
}

#[test]
fn source_equal_to_destination_needs_a_hop() {
    let domains = [domain(64496, 0, &[])];
    let mut profile = file(0, &domains, &[hop(0, 0, S, P, 1, B100)]);
    let mut request = ask(&profile, &[]);
    request.destination = S;
    assert_eq!(first(&request, 2).0, 1);
    profile = file(0, &domains, &[hop(0, 0, S, S, 1, B100)]);
    request = ask(&profile, &[]);
    request.destination = S;
    assert_eq!(first(&request, 2), (0, [0, 1, 0x3F80_0000, 1], vec![S, S]));
}

#[test]
fn lengths_are_judged_before_any_search() {
    let w = profile_w();
    let request = ask(&w, &SHORT);
    assert_eq!(
        next(&request, &[S, P, U], 0),
        (33, [0; 4], vec![]),
        "33 before 34"
    );
    assert_eq!(next(&request, &[S, P, U, Z, Z], 4).0, 33);
    assert_eq!(next(&request, &[], 4).0, 33);
    assert_eq!(
        next(&request, &[S, Q, U, Z], 3),
        (34, [0; 4], vec![OLD; 3]),
        "34 before 2"
    );
    assert_eq!(first(&request, 3), (34, [0; 4], vec![OLD; 3]));
    let mut hopeless = request;
    hopeless.destination = S;
    assert_eq!(first(&hopeless, 3).0, 34, "34 before 1");
    assert_eq!(next(&hopeless, &[0; 4], 4).0, 2, "never 1");
}

#[test]
fn a_result_leaves_the_rest_of_the_buffer() {
    let w = profile_w();
    let found = first(&ask(&w, &SHORT), 6);
    let numbers = [0, 14, 0x4160_0000, 1];
    assert_eq!(found, (0, numbers, vec![S, P, U, Z, OLD, OLD]));
}

#[test]
fn next_after_lists_that_are_no_paths() {
    let w = profile_w();
    let request = ask(&w, &SHORT);
    let after = |given: [u32; 4]| next(&request, &given, 4).2;
    assert_eq!(after([0, u32::MAX, 0, 0]), [S, P, U, Z]);
    assert_eq!(after([S - 1, u32::MAX, u32::MAX, u32::MAX]), [S, P, U, Z]);
    assert_eq!(after([S, P, U, Z - 1]), [S, P, U, Z]);
    assert_eq!(after([S, P, U, Z + 1]), [S, Q, T, Z]);
    assert_eq!(after([S, P + 1, 0, 0]), [S, Q, T, Z], "P + 1 is Q");
    assert_eq!(after([S, Q, T + 1, 0]), [S, Q, U, Z], "T + 1 is U");
    assert_eq!(next(&request, &[S, Q, U, Z], 4).0, 2);
    assert_eq!(next(&request, &[S, Q, U + 1, 0], 4).0, 2);
    assert_eq!(next(&request, &[S + 1, 0, 0, 0], 4).0, 2);
    assert_eq!(next(&request, &[u32::MAX; 4], 4).0, 2);
}

#[test]
fn capacity_of_the_tree_is_judged_on_each_buffer() {
    let w = profile_w();
    for short in 0..5 {
        let room = |i: usize| if i == short { 4 } else { 5 };
        let (mut level, mut address) = (vec![OLD; room(0)], vec![OLD; room(1)]);
        let (mut reachable, mut cost) = (vec![9; room(2)], vec![OLD; room(3)]);
        let mut numbers = [9; 4];
        let number = reference::tree(
            &ask(&w, &SHORT),
            &mut level,
            &mut address,
            &mut reachable,
            &mut cost,
            &mut numbers,
        );
        if short == 4 {
            assert_eq!((number, numbers), (0, [0, 5, 8, 1]));
        } else {
            assert_eq!((number, numbers), (34, [0; 4]));
            assert!(level
                .iter()
                .chain(&address)
                .chain(&cost)
                .all(|&word| word == OLD));
            assert!(reachable.iter().all(|&byte| byte == 9));
        }
    }
}
