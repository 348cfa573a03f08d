//! The rules of the tree: document 01's worked cases, float bits, bandwidth,
//! entry constraints and which hops are examined, each with the tree that the
//! rule gives.

use reference::Request;
use tests::by_hand::{ask, domain, file, hop, profile_w, B100, B1000, P, Q, S, SHORT, T, U, Z};
use tests::compare::Counts;
use tests::lists::{entry, long_as, ospf, short_as, verdict};
use tests::rows::{row, row_path};
use tests::tree::{build, Built, Entry, Tree};

fn tree_of(entries: &[Entry], hops_examined: u32) -> Built {
    Ok(Tree {
        entries: entries.to_vec(),
        hops_examined,
        round: 1,
    })
}

// Document 01's worked cases on the tree.

const TREE_OF_W: [Entry; 5] = [
    (0, S, Some(14)),
    (1, P, Some(4)),
    (1, Q, Some(11)),
    (2, T, Some(2)),
    (2, U, Some(3)),
];

#[test]
fn worked_trees_of_profile_w() {
    let w = profile_w();
    let long = [
        0x05, 0x08, 0x00, 0x00, 0x00, 0x00, 0xFB, 0xF1, 0x05, 0x08, 0x00, 0x00, 0x00, 0x00, 0xFB,
        0xF2,
    ];
    for include in [&SHORT[..], &long] {
        let built = build(&ask(&w, include), "W");
        assert_eq!(built, tree_of(&TREE_OF_W, 8), "{include:02X?}");
    }
    let alone = build(&ask(&w, &[]), "W, empty include list");
    assert_eq!(alone, tree_of(&[(0, S, None)], 0));
    let back = [long_as(64497), long_as(64496)].concat();
    let back = build(&ask(&w, &back), "W, 64497 then 64496");
    assert_eq!(back, Err((30, 8)));
}

/// The requests of the other cases on W; the tree takes no bound.
#[test]
fn worked_requests_on_profile_w() {
    let w = profile_w();
    let mut request = ask(&w, &SHORT);
    for bound in [14.0f32, 13.0, 0.0] {
        (request.bound_counts, request.bound_bits) = (true, bound.to_bits());
        let built = build(&request, "W, bound");
        assert_eq!(built, tree_of(&TREE_OF_W, 8), "bound {bound}");
    }
    request = ask(&w, &SHORT);
    request.bandwidth_bits = 0x42C8_0001;
    assert_eq!(build(&request, "W, QU lost"), tree_of(&TREE_OF_W, 8));
    request = ask(&w, &SHORT);
    request.exclude = &[0x01, 0x08, 0xC0, 0x00, 0x02, 0x0C, 0x20, 0x01];
    let mut without_q = TREE_OF_W;
    without_q[2].2 = None;
    assert_eq!(build(&request, "W, Q excluded"), tree_of(&without_q, 8));
    let u_pinned = [short_as(64497), entry(U), short_as(64498)].concat();
    let mut without_t = TREE_OF_W;
    without_t[3].2 = None;
    let built = build(&ask(&w, &u_pinned), "W, U constrained");
    assert_eq!(built, tree_of(&without_t, 8));
}

#[test]
fn worked_figure_3() {
    let records = [(64500, 0), (64501, 0), (64501, 4)];
    let domains = records.map(|(of, area)| domain(of, 1, &[0, 0, 0, area]));
    let profile = file(
        0,
        &domains,
        &[hop(0, 1, S, P, 1, B100), hop(1, 2, P, Q, 1, B100)],
    );
    let short = [long_as(64501), ospf(0), ospf(4)].concat();
    let long = [long_as(64500), ospf(0), short.clone()].concat();
    for include in [short, long] {
        let built = build(&ask(&profile, &include), "figure 3");
        assert_eq!(
            built,
            tree_of(&[(0, S, None), (1, P, None), (2, Q, None)], 2)
        );
    }
    let alone = long_as(64501);
    let alone = build(&ask(&profile, &alone), "figure 3, 64501");
    assert_eq!(alone, Err((29, 0)));
}

#[test]
fn cost_0_is_a_price() {
    let profile = file(0, &[domain(64496, 0, &[])], &[hop(0, 0, S, Z, 0, B100)]);
    let built = build(&ask(&profile, &[]), "one hop of cost 0");
    assert_eq!(built, tree_of(&[(0, S, Some(0))], 1));
}

/// The dearest path there can be: 16 hops of cost 16,777,215.
#[test]
fn the_greatest_total() {
    let (profile, include) = row(&[16_777_215; 16]);
    let path = row_path(16);
    let request = Request {
        destination: path[16],
        ..ask(&profile, &include)
    };
    let cost = |i: u32| Some(16_777_215 * (16 - i));
    let expected: Vec<Entry> = (0..16)
        .zip(path)
        .map(|(i, node)| (i, node, cost(i)))
        .collect();
    assert_eq!(expected[0].2, Some(268_435_440));
    assert_eq!(build(&request, "dearest"), tree_of(&expected, 16));
}

// Float bits.

/// Every exponent with either sign and the fractions at its edges.
fn float_bits() -> impl Iterator<Item = u32> {
    let fractions = [0, 1, 0x0040_0000, 0x007F_FFFF];
    (0..512).flat_map(move |top: u32| fractions.map(|fraction| top << 23 | fraction))
}

/// Bits from 7F800000 up are told: of the bandwidth always, of the bound where
/// it counts, and of the bandwidth before the bound.
#[test]
fn float_bits_out_of_range() {
    let w = profile_w();
    let mut counts = Counts::default();
    let mut check = |bandwidth_bits, bound_counts, bound_bits| {
        let request = Request {
            bandwidth_bits,
            bound_counts,
            bound_bits,
            ..ask(&w, &SHORT)
        };
        let expected = match (bandwidth_bits, bound_bits) {
            (0x7F80_0000.., _) => (21, 0),
            (_, 0x7F80_0000..) if bound_counts => (21, 1),
            _ => (0, 0),
        };
        let which = format!("{bandwidth_bits:08X}, {bound_counts}, {bound_bits:08X}");
        let found = verdict(&build(&request, &which));
        assert_eq!(found, expected, "{which}");
        counts.add(found);
    };
    for bits in float_bits() {
        for other in [0, 1, 0x7F7F_FFFF, 0x7F80_0000, 0x8000_0000, u32::MAX] {
            for bound_counts in [false, true] {
                check(bits, bound_counts, other);
                check(other, bound_counts, bits);
            }
        }
    }
    counts.cover("tree, float bits", &[0, 21]);
    assert_eq!(counts.places(21), 2);
}

/// One hop and one demand: usable if its bandwidth is at least that, both taken
/// as exact values.
#[test]
fn bandwidth_at_least_the_demand() {
    let near = |bits: u32| [bits.saturating_sub(1), bits, bits + 1];
    let edges = [
        1,
        0x007F_FFFF,
        0x0080_0000,
        0x00FF_FFFF,
        0x3F80_0000,
        B100,
        B1000,
        0x7F7F_FFFE,
    ];
    let bits: Vec<u32> = edges
        .into_iter()
        .flat_map(near)
        .chain([0x8000, 0x4B80_0000])
        .collect();
    let value = |bits: u32| f64::from(f32::from_bits(bits));
    let mut cases = 0;
    for &offered in &bits {
        let profile = file(0, &[domain(64496, 0, &[])], &[hop(0, 0, S, Z, 5, offered)]);
        for &asked in &bits {
            let request = Request {
                bandwidth_bits: asked,
                ..ask(&profile, &[])
            };
            let which = format!("{offered:08X} offered, {asked:08X} asked for");
            let least = (value(offered) >= value(asked)).then_some(5);
            assert_eq!(
                build(&request, &which),
                tree_of(&[(0, S, least)], 1),
                "{which}"
            );
            cases += 1;
        }
    }
    println!("\ntree, bandwidths: {cases} cases");
}

/// A bound in range changes nothing in the tree, whatever it is.
#[test]
fn the_bound_is_not_applied() {
    let w = profile_w();
    for bound_bits in float_bits().filter(|&bits| bits < 0x7F80_0000) {
        let request = Request {
            bound_counts: true,
            bound_bits,
            ..ask(&w, &SHORT)
        };
        let built = build(&request, format_args!("bound {bound_bits:08X}"));
        assert_eq!(built, tree_of(&TREE_OF_W, 8), "{bound_bits:08X}");
    }
}

// Which entries are listed, and which hops are examined.

/// W's domains with its hops and others that are no step of its sequence: back,
/// past a domain, and inside the first two. All are cheaper.
fn w_with_other_hops() -> Vec<u8> {
    let domains = [64496, 64497, 64498].map(|as_number| domain(as_number, 0, &[]));
    let w = profile_w();
    let mut hops: Vec<Vec<u8>> = w[72..].chunks(20).map(<[u8]>::to_vec).collect();
    let pairs = [(0, 0), (0, 2), (1, 0), (1, 1), (2, 0), (2, 1)];
    for (from, to) in pairs {
        for (u, v) in [(S, Z), (S, T), (P, Z), (Q, U), (T, Z)] {
            hops.push(hop(from, to, u, v, 0, B1000));
        }
    }
    hops.sort();
    file(0, &domains, &hops)
}

#[test]
fn hops_of_other_pairs_are_not_examined() {
    let built = build(&ask(&w_with_other_hops(), &SHORT), "W and other hops");
    assert_eq!(built, tree_of(&TREE_OF_W, 8));
}

/// Entries are listed and hops examined whatever their bandwidth, and from
/// whatever node they come.
#[test]
fn what_cannot_be_used_is_listed() {
    let w = profile_w();
    let unreachable = TREE_OF_W.map(|(level, address, _)| (level, address, None));
    let request = Request {
        bandwidth_bits: B1000 + 1,
        ..ask(&w, &SHORT)
    };
    assert_eq!(build(&request, "too little"), tree_of(&unreachable, 8));
    let request = Request {
        source: 7,
        ..ask(&w, &SHORT)
    };
    let mut elsewhere = TREE_OF_W;
    elsewhere[0] = (0, 7, None);
    assert_eq!(build(&request, "from 7"), tree_of(&elsewhere, 8));
    let request = Request {
        destination: 7,
        ..ask(&w, &SHORT)
    };
    assert_eq!(build(&request, "to 7"), tree_of(&unreachable, 8));
}

/// Each part of W's sequence, from each domain.
#[test]
fn the_hops_of_the_sequence_alone() {
    let w = profile_w();
    let check = |ingress, source, include, expected: &[Entry], hops_examined| {
        let request = Request {
            ingress,
            source,
            ..ask(&w, include)
        };
        let built = build(&request, format_args!("from {ingress}"));
        assert_eq!(built, tree_of(expected, hops_examined));
    };
    let (second, third) = SHORT.split_at(4);
    check(0, S, second, &[(0, S, None), (1, P, None), (1, Q, None)], 2);
    check(1, P, &[], &[(0, P, None)], 0);
    check(
        1,
        P,
        third,
        &[(0, P, Some(4)), (1, T, Some(2)), (1, U, Some(3))],
        6,
    );
    check(
        1,
        Q,
        third,
        &[(0, Q, Some(11)), (1, T, Some(2)), (1, U, Some(3))],
        6,
    );
    check(2, T, &[], &[(0, T, Some(2))], 2);
    check(0, S, third, &[(0, S, None)], 2);
    check(2, T, second, &[(0, T, None)], 0);
}

/// W with an entry constraint on either domain or both: P, Q, or a node that is
/// no entry node; then T, U, or none.
#[test]
fn entry_constraints_on_profile_w() {
    let w = profile_w();
    let cost = |step: u32, rest: Option<u32>| rest.map(|rest| rest + step);
    let least = |a: Option<u32>, b: Option<u32>| a.into_iter().chain(b).min();
    for second in [None, Some(P), Some(Q), Some(T), Some(0)] {
        for third in [None, Some(T), Some(U), Some(Q), Some(u32::MAX)] {
            let constraint = |node: Option<u32>| node.map_or(Vec::new(), entry);
            let include = [
                constraint(second),
                short_as(64497),
                constraint(third),
                short_as(64498),
            ];
            let kept = |by: Option<u32>, node: u32, cost: Option<u32>| match by {
                Some(only) if only != node => None,
                _ => cost,
            };
            let (t, u) = (kept(third, T, Some(2)), kept(third, U, Some(3)));
            let p = kept(second, P, least(cost(3, t), cost(1, u)));
            let q = kept(second, Q, least(cost(9, t), cost(8, u)));
            let s = least(cost(10, p), cost(3, q));
            let expected = [(0, S, s), (1, P, p), (1, Q, q), (2, T, t), (2, U, u)];
            let which = format!("{second:08X?}, {third:08X?}");
            let built = build(&ask(&w, &include.concat()), &which);
            assert_eq!(built, tree_of(&expected, 8), "{which}");
        }
    }
}

/// Source equal to destination still needs a hop; it may be one from the node to
/// itself.
#[test]
fn source_equal_to_destination() {
    for (v, least) in [(P, None), (S, Some(1))] {
        let profile = file(0, &[domain(64496, 0, &[])], &[hop(0, 0, S, v, 1, B100)]);
        let request = Request {
            destination: S,
            ..ask(&profile, &[])
        };
        assert_eq!(build(&request, "S to S"), tree_of(&[(0, S, least)], 1));
    }
}
