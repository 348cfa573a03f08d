//! The calls through a PCReq on profile W: document 01's worked cases, which
//! objects count, the bound by the METRICs' order, capacities, and stack.

use reference::generate;
use reference::{PcReq, Request};
use tests::by_hand::messages::*;
use tests::by_hand::{ask, profile_w, B100, P as NODE_P, Q, S, SHORT, T, U, Z};
use tests::compare::{compare, Counts};
use tests::lists::{entry, excluded, long_as, marked, short_as};
use tests::paths::{buffer, LONGEST};
use tests::pcreq::{carry, listing, pcreq_first, pcreq_next, pcreq_tree, AskPath, AskTree};
use tests::stack;
use tests::tree::{buffers, MOST_ENTRIES};

const SPUZ: [u32; 4] = [S, NODE_P, U, Z];
const SQTZ: [u32; 4] = [S, Q, T, Z];
const SQUZ: [u32; 4] = [S, Q, U, Z];

/// The request of document 01's cases, with more objects after it.
fn w(more: &[Vec<u8>]) -> Vec<u8> {
    let asked = [rp(1, 0), end_points(S, Z), bandwidth(B100), iro(&SHORT)];
    message(PCREQ, &[&asked, more].concat())
}

/// The listing on W is these paths of total 14 in this round; then 2, or 1 if
/// there are none.
#[track_caller]
fn lists(message: &[u8], round: u32, paths: &[[u32; 4]]) {
    let profile = profile_w();
    let asked = PcReq {
        profile: &profile,
        ingress: 0,
        message,
    };
    let (found, end) = listing(&asked, 4, 100);
    let expected: Vec<_> = paths.iter().map(|p| (p.to_vec(), 14, round)).collect();
    let none = if paths.is_empty() { 1 } else { 2 };
    assert_eq!((found, end), (expected, (none, [0; 4])));
    let path = AskPath {
        asked,
        given: None,
        path: buffer(5),
    };
    compare(&path, "W");
}

/// The request as the plainest message.
#[track_caller]
fn carries(request: &Request, paths: &[[u32; 4]]) {
    lists(&carry(request), 1, paths);
}

#[test]
fn worked_cases() {
    let profile = profile_w();
    let asked = ask(&profile, &SHORT);
    carries(&asked, &[SPUZ, SQTZ, SQUZ]);
    let long = [long_as(64497), long_as(64498)].concat();
    carries(&ask(&profile, &long), &[SPUZ, SQTZ, SQUZ]);
    let bounded = |bound: f32| Request {
        bound_counts: true,
        bound_bits: bound.to_bits(),
        ..asked
    };
    carries(&bounded(14.0), &[SPUZ, SQTZ, SQUZ]);
    carries(&bounded(13.0), &[]);
    let wide = Request {
        bandwidth_bits: 0x42C8_0001,
        ..asked
    };
    carries(&wide, &[SPUZ, SQTZ]);
    let without_q = excluded(Q, 32);
    let request = Request {
        exclude: &without_q,
        ..asked
    };
    carries(&request, &[SPUZ]);
    let constrained = [short_as(64497), entry(U), short_as(64498)].concat();
    carries(&ask(&profile, &constrained), &[SPUZ, SQUZ]);
    let desired = [marked(excluded(NODE_P, 32)), marked(excluded(Q, 32))].concat();
    lists(&w(&[xro(&desired)]), 2, &[SPUZ, SQTZ, SQUZ]);
}

#[test]
fn worked_tree() {
    let profile = profile_w();
    let message = w(&[]);
    let case = AskTree {
        asked: PcReq {
            profile: &profile,
            ingress: 0,
            message: &message,
        },
        buffers: buffers([5; 4]),
    };
    let tree = compare(&case, "W");
    assert_eq!((tree.number, tree.numbers), (0, [0, 5, 8, 1]));
    let (level, address, reachable, cost) = &tree.buffers;
    assert_eq!(level.contents(), [0, 1, 1, 2, 2]);
    assert_eq!(address.contents(), [S, NODE_P, Q, T, U]);
    assert_eq!(reachable.contents(), [1; 5]);
    assert_eq!(cost.contents(), [14, 4, 11, 2, 3]);
}

#[test]
fn what_is_not_there() {
    // No IRO leaves the ingress domain alone; no BANDWIDTH is 0.0.
    lists(&message(PCREQ, &[rp(1, 0), end_points(S, Z)]), 1, &[]);
    let asked = [rp(1, 0), end_points(S, Z), iro(&SHORT)];
    lists(&message(PCREQ, &asked), 1, &[SPUZ, SQTZ, SQUZ]);
}

#[test]
fn the_first_of_its_kind_counts() {
    let first = |one: Vec<u8>| {
        let base = w(&[]);
        let objects = [one, base[4..].to_vec()];
        message(PCREQ, &objects)
    };
    let all = [SPUZ, SQTZ, SQUZ];
    lists(&first(bandwidth(0)), 1, &all);
    lists(&first(bandwidth(0x42C8_0001)), 1, &[SPUZ, SQTZ]);
    lists(&w(&[bandwidth(0x42C8_0001)]), 1, &all);
    lists(&w(&[bandwidth(u32::MAX)]), 1, &all);
    lists(&first(end_points(S, S)), 1, &[]);
    lists(&w(&[end_points(S, S)]), 1, &all);
    lists(&first(iro(&[])), 1, &[]);
    lists(&w(&[iro(&[]), iro(&[0; 1_028])]), 1, &all);
    let [q, p] = [Q, NODE_P].map(|node| xro(&excluded(node, 32)));
    lists(&w(&[q.clone(), p.clone()]), 1, &[SPUZ]);
    lists(&w(&[p, q, xro(&[0xFF; 4])]), 1, &[SQTZ, SQUZ]);
    lists(&first(rp(2, 0)), 1, &all);
}

/// Of up to four METRICs, each with B set or not and a bound that lets all paths
/// through or none: the first with B set decides.
#[test]
fn the_first_metric_with_b_set_is_the_bound() {
    let mut cases = 0;
    for count in 0..=4u32 {
        for code in 0..1 << (2 * count) {
            let metrics: Vec<(bool, bool)> = (0..count)
                .map(|i| (code >> (2 * i) & 1 == 1, code >> (2 * i + 1) & 1 == 1))
                .collect();
            for (noise, kind) in [(0, 1), (0xFE, 2), (C, 3), (0, 0), (0x80, 255)] {
                let piece = |&(bound, wide): &(bool, bool)| {
                    let bits = if wide { 14.0f32 } else { 13.0 }.to_bits();
                    metric(kind, noise | u8::from(bound), bits)
                };
                let objects: Vec<_> = metrics.iter().map(piece).collect();
                let bound = metrics.iter().find(|(bound, _)| *bound);
                let all = [SPUZ, SQTZ, SQUZ];
                let expected = match bound {
                    Some((_, false)) => &[][..],
                    _ => &all,
                };
                lists(&w(&objects), 1, expected);
                cases += 1;
            }
        }
    }
    println!("\nthrough a PCReq, bounds: {cases} messages");
}

/// Bits of the bound around a total, and those of METRICs that are no bound.
#[test]
fn bounds_by_their_bits() {
    let exact = 14.0f32.to_bits();
    for (bits, some) in [
        (exact - 1, false),
        (exact, true),
        (exact + 1, true),
        (0, false),
        (1, false),
        (0x7F7F_FFFF, true),
    ] {
        let all = [SPUZ, SQTZ, SQUZ];
        let expected = if some { &all[..] } else { &[] };
        lists(&w(&[metric(1, B, bits)]), 1, expected);
        lists(&w(&[metric(1, 0xFE, bits)]), 1, &all);
    }
}

/// A METRIC out of range refuses the request, a bound or not: after the profile,
/// the ingress and the bandwidth, before the lists.
#[test]
fn every_metric_is_in_range() {
    let profile = profile_w();
    let long = iro(&[0; 1_028]);
    for bits in [0x7F80_0000, 0x7FC0_0000, 0x8000_0000, u32::MAX] {
        for (flags, other) in [(0, B), (B, 0), (B, B), (0xFE, 0)] {
            for metrics in [
                vec![metric(1, flags, bits)],
                vec![metric(1, other, 5), metric(2, flags, bits)],
                vec![metric(1, flags, bits), metric(2, other, 5)],
            ] {
                let rest = [rp(1, 0), long.clone(), end_points(S, Z)];
                let objects = [&metrics[..], &rest].concat();
                let wide = [&objects[..], &[bandwidth(bits)]].concat();
                let cases = [
                    (&objects, &profile[..], 0, (21, 1)),
                    (&wide, &profile, 0, (21, 0)),
                    (&wide, &profile, 3, (20, 0)),
                    (&wide, &profile[1..], 3, (11, 0)),
                ];
                for (objects, profile, ingress, expected) in cases {
                    let message = message(PCREQ, objects);
                    let asked = PcReq {
                        profile,
                        ingress,
                        message: &message,
                    };
                    let buffers = buffers([0; 4]);
                    let tree = compare(&AskTree { asked, buffers }, "tree");
                    assert_eq!(tree.verdict(), expected);
                    for given in [None, Some(&[][..])] {
                        let path = buffer(0);
                        let answer = compare(&AskPath { asked, given, path }, "path");
                        assert_eq!(answer.verdict(), expected);
                    }
                }
            }
        }
    }
}

#[test]
fn every_given_length_and_capacity() {
    let (profile, message) = (profile_w(), w(&[]));
    let asked = PcReq {
        profile: &profile,
        ingress: 0,
        message: &message,
    };
    let mut counts = Counts::default();
    for capacity in 0..8 {
        for length in (0..8).map(Some).chain([None]) {
            let given = length.map(|length| vec![0; length]);
            let path = AskPath {
                asked,
                given: given.as_deref(),
                path: buffer(capacity),
            };
            let answer = compare(&path, format_args!("{length:?} given, into {capacity}"));
            let expected = match (length, capacity) {
                (Some(0..=3 | 5..), _) => 33,
                (_, 0..=3) => 34,
                _ => 0,
            };
            assert_eq!(answer.verdict(), (expected, 0));
            counts.add(answer.verdict());
        }
        for short in 0..4 {
            let mut sizes = [9; 4];
            sizes[short] = capacity;
            let buffers = buffers(sizes);
            let tree = compare(&AskTree { asked, buffers }, format_args!("into {sizes:?}"));
            let expected = if capacity < 5 { (34, 0) } else { (0, 0) };
            assert_eq!(tree.verdict(), expected);
            counts.add(expected);
        }
    }
    counts.cover("through a PCReq, lengths", &[0, 33, 34]);
}

#[test]
fn inputs_may_lie_at_any_address() {
    let case = generate::largest_request(6);
    let message = carry(&case.request());
    let mut expected = None;
    for offset in 0..16 {
        let moved = [&vec![0xFF; offset][..], &case.profile, &message].concat();
        let (profile, message) = moved[offset..].split_at(case.profile.len());
        let asked = PcReq {
            profile,
            ingress: 0,
            message,
        };
        let path = AskPath {
            asked,
            given: None,
            path: buffer(LONGEST),
        };
        let answer = compare(&path, offset);
        assert_eq!(answer.number, 0);
        assert_eq!(&answer, expected.get_or_insert(answer.clone()));
    }
}

#[test]
fn a_count_is_more_than_32_bits() {
    // Zero pages that are never looked at take no memory.
    let (profile, message) = (profile_w(), w(&[]));
    let mut zeros = vec![0; (1 << 32) + message.len()];
    zeros[..message.len()].copy_from_slice(&message);
    let asked = PcReq {
        profile: &profile,
        ingress: 0,
        message: &zeros,
    };
    let (mut path, mut numbers) = ([0; 4], [7; 4]);
    let number = pcreq_first(&asked, &mut path, &mut numbers);
    assert_eq!((number, numbers, path), (36, [0; 4], [0; 4]));
}

#[test]
fn only_the_four_numbers_are_stored() {
    let profile = profile_w();
    for (message, expected) in [
        (w(&[]), [7, 0, 14, 0x4160_0000, 1, 7]),
        (w(&[object(99, 1, P, &[])]), [7, 48, 0, 0, 0, 7]),
    ] {
        let asked = PcReq {
            profile: &profile,
            ingress: 0,
            message: &message,
        };
        let (mut around, mut again, mut path) = ([7; 6], [7; 6], [0; 4]);
        let numbers = (&mut around[1..5]).try_into().expect("four numbers");
        pcreq_first(&asked, &mut path, numbers);
        let numbers = (&mut again[1..5]).try_into().expect("four numbers");
        pcreq_next(&asked, &[0; 4], &mut path, numbers);
        assert_eq!((around, again), (expected, expected));
    }
}

#[test]
fn stack_of_at_most_16_kib() {
    let mut most = [0; 3];
    let mut used = |asked: PcReq, given: &[u32]| {
        let (mut words, mut reachable) = ([[0; MOST_ENTRIES]; 3], [0; MOST_ENTRIES]);
        let [level, address, cost] = &mut words;
        let (mut path, mut numbers) = ([0; LONGEST], [0; 4]);
        let tree = stack::bytes_used(|| {
            pcreq_tree(&asked, level, address, &mut reachable, cost, &mut numbers);
        });
        let first = stack::bytes_used(|| _ = pcreq_first(&asked, &mut path, &mut numbers));
        let next = stack::bytes_used(|| _ = pcreq_next(&asked, given, &mut path, &mut numbers));
        for (most, bytes) in most.iter_mut().zip([tree, first, next]) {
            *most = bytes.max(*most);
        }
    };
    let large = [
        generate::largest_request(4),
        generate::equal_paths_request(),
    ];
    for case in &large {
        let message = carry(&case.request());
        let asked = PcReq {
            profile: &case.profile,
            ingress: case.ingress,
            message: &message,
        };
        used(asked, &[0; 17]);
    }
    for seed in 0..1_000 {
        let case = generate::pcreq_case(seed);
        let asked = PcReq {
            profile: &case.request().profile,
            ingress: case.request().ingress,
            message: &case.message,
        };
        used(asked, &case.next.given);
    }
    let [tree, first, next] = most;
    println!("\npcreq_tree: {tree} bytes of stack, pcreq_first: {first}, pcreq_next: {next}");
    assert!(most.iter().all(|&bytes| bytes <= 16 * 1024));
}
