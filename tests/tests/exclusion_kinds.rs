//! What each kind of exclusion hits, through tree: a prefix of every length, an
//! area of every kind and length, and an AS in either form.

use reference::Request;
use tests::by_hand::{ask, domain, file, hop};
use tests::lists::{excluded, is_is, long_as, marked, short_as};
use tests::tree::{build, Tree};

// Nodes.

/// Nodes that differ from the prefix in one bit each, as source, as destination
/// and as entry node, for every length; the bits after it are anything.
#[test]
fn a_prefix_of_every_length() {
    let mut cases = 0;
    for base in [0u32, u32::MAX, 0x0A5A_C396, 0x8000_0001] {
        let far = base ^ 0xE000_0000;
        for bit in 0..=32 {
            let node = if bit == 32 { base } else { base ^ 1 << bit };
            // Whether a node lies in the prefix, bit by bit from the top.
            let inside = |node: u32, length: u8| {
                (0..length).all(|i| node >> (31 - i) & 1 == base >> (31 - i) & 1)
            };
            let hops = [hop(0, 1, far, node, 1, 0), hop(1, 1, node, far, 1, 0)];
            let profile = file(1, &[1, 2].map(|as_number| domain(as_number, 0, &[])), &hops);
            for length in 0..=32 {
                for noise in [0, u32::MAX, 0x5555_5555] {
                    let after = u32::MAX.checked_shr(length.into()).unwrap_or(0);
                    let exclude = excluded(base ^ noise & after, length);
                    let request = Request {
                        source: far,
                        destination: far,
                        exclude: &exclude,
                        bandwidth_bits: 0,
                        ..ask(&profile, &[32, 4, 0, 2])
                    };
                    let (ends, gone) = (inside(far, length), inside(node, length));
                    let reached = |cost| (!ends && !gone).then_some(cost);
                    let entries = vec![(0, far, reached(2)), (1, node, reached(1))];
                    let which = format!("{node:08X} in {base:08X}/{length}");
                    let built = build(&request, &which);
                    let expected = Ok(Tree {
                        entries,
                        hops_examined: 2,
                        round: 1,
                    });
                    assert_eq!(built, expected, "{which}");
                    cases += 1;
                }
            }
        }
    }
    println!("\ntree, prefixes: {cases} cases");
}

// Domains.

/// A live profile of these domains, with a hop from 7 to 8 inside each.
fn with_hops(domains: &[Vec<u8>]) -> Vec<u8> {
    let count = domains.len() as u16;
    let hops: Vec<_> = (0..count).map(|i| hop(i, i, 7, 8, 1, 0)).collect();
    file(1, domains, &hops)
}

/// Whether each domain's hop is left over by an exclusion. Where it isn't, the
/// same exclusion with X set leaves it to round 2.
fn left_over(profile: &[u8], piece: &[u8]) -> Vec<bool> {
    let reached = |ingress, exclude: &[u8]| {
        let request = Request {
            ingress,
            source: 7,
            destination: 8,
            exclude,
            bandwidth_bits: 0,
            ..ask(profile, &[])
        };
        let which = format!("{ingress} without {exclude:02X?}");
        let tree = build(&request, which).expect("it is accepted");
        (tree.entries[0].2.is_some(), tree.round)
    };
    let desired = marked(piece.to_vec());
    (0..u16::from(profile[7]))
        .map(|ingress| {
            let (left, round) = reached(ingress, piece);
            assert_eq!(round, 1, "{piece:02X?}");
            let round = if left { 1 } else { 2 };
            assert_eq!(reached(ingress, &desired), (true, round), "{desired:02X?}");
            left
        })
        .collect()
}

/// Areas that differ in one byte, in length alone or in kind alone, in three AS:
/// each area excluded.
#[test]
fn an_area_of_every_kind_and_length_in_any_as() {
    let mut areas: Vec<(u8, Vec<u8>)> = (1..=13).map(|n| (2, vec![0; n])).collect();
    areas.extend([0, 1, 4].map(|area| (1, vec![0, 0, 0, area])));
    areas.extend([1, 4].map(|area| (2, vec![0, 0, 0, area])));
    areas.push((2, vec![0, 0, 0, 0, 0, 0, 0, 0, 0, 0, 0, 0, 1]));
    let mut domains: Vec<(Vec<u8>, usize)> = Vec::new();
    for as_number in [100, 101, 0x0001_0064] {
        for (index, (kind, area)) in areas.iter().enumerate() {
            domains.push((domain(as_number, *kind, area), index));
        }
    }
    domains.push((domain(102, 0, &[]), usize::MAX));
    domains.sort();
    let records: Vec<Vec<u8>> = domains.iter().map(|(record, _)| record.clone()).collect();
    let profile = with_hops(&records);
    for (index, (kind, area)) in areas.iter().enumerate() {
        let expected: Vec<bool> = domains.iter().map(|&(_, own)| own != index).collect();
        let piece = match kind {
            1 => [&[6, 8, 0xFF, 0xFF], &area[..]].concat(),
            _ => is_is(area),
        };
        assert_eq!(left_over(&profile, &piece), expected, "{piece:02X?}");
    }
}

/// AS numbers that differ in one byte, or in length of their form alone.
#[test]
fn an_as_in_either_form() {
    // The last two have low bytes that an AS of two bytes could have.
    let numbers = [
        1,
        255,
        256,
        257,
        23_455,
        23_457,
        65_535,
        0x0001_0200,
        0x0102_0001,
    ];
    let profile = with_hops(&numbers.map(|as_number| domain(as_number, 0, &[])));
    let others = [2, 0x0200, 0x0300, 0xFFFE, 0x0001_5BA0, 0x0001_0000];
    for as_number in numbers.into_iter().chain(others) {
        let expected = numbers.map(|own| own != as_number);
        let long = long_as(as_number);
        assert_eq!(left_over(&profile, &long), expected, "{long:02X?}");
        if let Ok(as_number) = u16::try_from(as_number) {
            let short = short_as(as_number);
            assert_eq!(left_over(&profile, &short), expected, "{short:02X?}");
        }
    }
}
