//! The rules of first and next at their edges: bounds, bandwidth, addresses that
//! come twice and their order, each with the paths that the rule gives.

use reference::Request;
use tests::by_hand::{ask, domain, file, hop, profile_w, B100, B1000, P, Q, S, SHORT, T, U, Z};
use tests::floats::{keeps, nearest};
use tests::lists::excluded;
use tests::paths::{find_first, find_next, listing, Found};
use tests::rows::{row, row_path, spread};

// Bounds and bandwidth.

#[test]
fn bounds_around_every_kind_of_total() {
    let powers = (0..28).flat_map(|power| [(1 << power) - 1, 1 << power, (1 << power) + 1]);
    let others = [14, 1_000, 1_048_560, 268_435_439, 268_435_440];
    let mut cases = 0;
    for total in powers.chain(others) {
        let (profile, include) = row(&spread(total, 16));
        let path = row_path(16);
        let float = nearest(total);
        let around = [float.saturating_sub(1), float, float + 1];
        let edges = [
            0,
            1,
            0x007F_FFFF,
            0x0080_0000,
            0x3F7F_FFFF,
            0x3F80_0000,
            0x7F7F_FFFF,
        ];
        for bound_bits in around.into_iter().chain(edges) {
            let request = Request {
                destination: path[16],
                bound_counts: true,
                bound_bits,
                ..ask(&profile, &include)
            };
            let within = keeps(total, bound_bits);
            let which = format!("total {total}, bound {bound_bits:08X}");
            let found: Found = Ok((path.clone(), total, 1));
            let (first, next) = match within {
                true => (found.clone(), found),
                false => (Err((1, 0)), Err((2, 0))),
            };
            assert_eq!(find_first(&request, &which), first, "{which}");
            assert_eq!(find_next(&request, &[0; 17], &which), next, "{which}");
            cases += 2;
        }
    }
    println!("\nfirst and next, bounds: {cases} cases");
}

/// Bits that a bound doesn't have in range aren't looked at if it doesn't count.
#[test]
fn a_bound_that_does_not_count() {
    let w = profile_w();
    for bound_bits in [
        0,
        1,
        13.0f32.to_bits(),
        0x7F80_0000,
        0x7FC0_0000,
        0x8000_0000,
        u32::MAX,
    ] {
        let request = Request {
            bound_bits,
            ..ask(&w, &SHORT)
        };
        let (found, _) = listing(&request, 10);
        assert_eq!(found.len(), 3, "{bound_bits:08X}");
    }
}

/// The demand at, just below and just above the bandwidth of each hop of W.
#[test]
fn bandwidth_equal_to_the_demand() {
    let w = profile_w();
    let paths = |bandwidth_bits| {
        let request = Request {
            bandwidth_bits,
            ..ask(&w, &SHORT)
        };
        assert_eq!(
            find_first(&request, bandwidth_bits).ok(),
            listing(&request, 1).0.pop()
        );
        listing(&request, 10).0.len()
    };
    for (bits, count) in [
        (0, 3),
        (1, 3),
        (B100 - 1, 3),
        (B100, 3),
        (B100 + 1, 2),
        (B1000 - 1, 2),
        (B1000, 2),
        (B1000 + 1, 0),
        (0x7F7F_FFFF, 0),
    ] {
        assert_eq!(paths(bits), count, "{bits:08X}");
    }
}

// Addresses.

#[test]
fn source_equal_to_destination() {
    let domains = [domain(64496, 0, &[])];
    let to_itself = |hops: &[Vec<u8>]| {
        let profile = file(0, &domains, hops);
        let request = Request {
            destination: S,
            ..ask(&profile, &[])
        };
        find_first(&request, "S to S")
    };
    assert_eq!(to_itself(&[]), Err((1, 0)));
    assert_eq!(to_itself(&[hop(0, 0, S, P, 1, B100)]), Err((1, 0)));
    let there = Ok((vec![S, S], 3, 1));
    assert_eq!(to_itself(&[hop(0, 0, S, S, 3, B100)]), there);
}

/// S, P and Z as entry nodes of both domains after the first: any address may
/// occur twice, source and destination too.
#[test]
fn an_address_twice_on_a_path() {
    let domains = [64496, 64497, 64498].map(|as_number| domain(as_number, 0, &[]));
    let nodes = [S, P, Z];
    let into = nodes.map(|v| hop(0, 1, S, v, 0, B100));
    let between = nodes
        .map(|u| nodes.map(|v| hop(1, 2, u, v, 1, B100)))
        .concat();
    let last = nodes.map(|u| hop(2, 2, u, Z, 0, B100));
    let profile = file(0, &domains, &[&into[..], &between, &last].concat());
    let request = ask(&profile, &SHORT);
    let expected: Vec<_> = nodes
        .into_iter()
        .flat_map(|a| nodes.map(|b| (vec![S, a, b, Z], 1, 1)))
        .collect();
    assert_eq!(listing(&request, 20), (expected, (2, [0; 4])));
    let exclude = excluded(Z, 32);
    let request = Request {
        exclude: &exclude,
        ..request
    };
    assert_eq!(find_first(&request, "Z excluded"), Err((1, 0)));
}

/// Addresses ascend as unsigned numbers, and each byte of them counts.
#[test]
fn the_order_of_addresses() {
    let mut nodes = [
        0,
        1,
        0x0100,
        0x0001_0000,
        0x0100_0000,
        0x7FFF_FFFF,
        0x8000_0000,
        0xFF00_0000,
        u32::MAX,
    ];
    let hops: Vec<_> = nodes
        .map(|v| hop(0, 1, 7, v, 0, 0))
        .into_iter()
        .chain(nodes.map(|u| hop(1, 1, u, 9, 0, 0)))
        .collect();
    let profile = file(1, &[1, 2].map(|as_number| domain(as_number, 0, &[])), &hops);
    let request = Request {
        source: 7,
        destination: 9,
        bandwidth_bits: 0,
        ..ask(&profile, &[32, 4, 0, 2])
    };
    nodes.sort_unstable();
    let expected: Vec<_> = nodes.iter().map(|&v| (vec![7, v, 9], 0, 1)).collect();
    assert_eq!(listing(&request, 20), (expected, (2, [0; 4])));
    for (index, &v) in nodes.iter().enumerate() {
        let after = nodes.get(index + 1).map(|&v| (vec![7, v, 9], 0, 1));
        for last in [9, 10, u32::MAX] {
            let found = find_next(&request, &[7, v, last], v);
            assert_eq!(found.ok(), after, "{v:08X}");
        }
        let found = find_next(&request, &[7, v, 8], v);
        assert_eq!(found, Ok((vec![7, v, 9], 0, 1)));
    }
}

/// W's paths after lists that are no paths.
#[test]
fn lists_around_the_paths_of_w() {
    let w = profile_w();
    let request = ask(&w, &SHORT);
    let (first, second, third) = ([S, P, U, Z], [S, Q, T, Z], [S, Q, U, Z]);
    for (given, expected) in [
        ([0, u32::MAX, 0, 0], Some(first)),
        ([S - 1, u32::MAX, u32::MAX, u32::MAX], Some(first)),
        ([S, P, U, Z - 1], Some(first)),
        ([S, P, U, Z + 1], Some(second)),
        ([S, P, u32::MAX, 0], Some(second)),
        ([S, Q - 1, u32::MAX, 0], Some(second)),
        ([S, Q, T, Z - 1], Some(second)),
        ([S, Q, T + 1, 0], Some(third)),
        ([S, Q, U, Z], None),
        ([S, Q, U + 1, 0], None),
        ([S + 1, 0, 0, 0], None),
        ([u32::MAX; 4], None),
    ] {
        let found = find_next(&request, &given, "W");
        let expected = expected.map(|path| (path.to_vec(), 14, 1)).ok_or((2, 0));
        assert_eq!(found, expected, "{given:08X?}");
    }
}
