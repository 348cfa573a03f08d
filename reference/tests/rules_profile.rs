//! The rules for profiles, each on a file made by hand for it.

use crate::common;
use common::*;

/// A place in a domain or hop record, with what to write there.
type Change<'a> = (usize, &'a [u8]);

fn changed(changes: &[Change]) -> Vec<u8> {
    let mut bytes = profile_w();
    for &(at, new) in changes {
        bytes[at..at + new.len()].copy_from_slice(new);
    }
    bytes
}

/// Where record `place` of profile W begins.
fn record(place: usize) -> usize {
    12 + 20 * place
}

#[test]
fn header_checks_in_order() {
    for length in 0..12 {
        assert_eq!(check(&profile_w()[..length]), (10, 0));
    }
    for at in [0, 1, 2, 3, 4, 10, 11] {
        assert_eq!(
            check(&changed(&[(at, &[9]), (5, &[2])])),
            (11, 0),
            "byte {at}"
        );
    }
    assert_eq!(check(&changed(&[(5, &[2])])), (12, 0));
    assert_eq!(check(&changed(&[(6, &[0, 0])])), (12, 0));
    assert_eq!(check(&changed(&[(6, &[0, 65])])), (12, 0));
    assert_eq!(check(&changed(&[(8, &[0x0B, 0xB9])])), (12, 0));
    // 64 domains and 3,000 hops are in range, so the length is what is wrong.
    assert_eq!(check(&changed(&[(6, &[0, 64, 0x0B, 0xB8])])), (13, 0));
    assert_eq!(check(&profile_w()[..231]), (13, 0));
    assert_eq!(check(&[profile_w(), vec![0]].concat()), (13, 0));
}

#[test]
fn malformed_domains() {
    let at = record(1);
    assert_eq!(check(&changed(&[(at + 4, &[3, 4])])), (14, 1));
    assert_eq!(check(&changed(&[(at + 4, &[0, 1])])), (14, 1));
    assert_eq!(check(&changed(&[(at + 4, &[1, 0])])), (14, 1));
    assert_eq!(check(&changed(&[(at + 4, &[1, 5])])), (14, 1));
    assert_eq!(check(&changed(&[(at + 4, &[2, 0])])), (14, 1));
    assert_eq!(check(&changed(&[(at + 4, &[2, 14])])), (14, 1));
    assert_eq!(
        check(&changed(&[(at + 6, &[1])])),
        (14, 1),
        "after the length"
    );
    assert_eq!(
        check(&changed(&[(at + 18, &[1])])),
        (14, 1),
        "last area byte"
    );
    assert_eq!(check(&changed(&[(at + 19, &[1])])), (14, 1), "last byte");
    assert_eq!(
        check(&changed(&[(at + 4, &[1, 4, 1, 2, 3, 4, 1])])),
        (14, 1)
    );
}

#[test]
fn well_formed_domains() {
    let at = record(1);
    assert_eq!(check(&changed(&[(at + 4, &[1, 4, 1, 2, 3, 4])])), (0, 0));
    for length in 1..=13 {
        assert_eq!(check(&changed(&[(at + 4, &[2, length, 7])])), (0, 0));
    }
    let full = [2, 13, 1, 2, 3, 4, 5, 6, 7, 8, 9, 10, 11, 12, 13];
    assert_eq!(check(&changed(&[(at + 4, &full)])), (0, 0));
}

#[test]
fn domains_out_of_order() {
    let at = record(1);
    assert_eq!(check(&changed(&[(at + 3, &[0xF0])])), (15, 1), "equal");
    assert_eq!(
        check(&changed(&[(at + 2, &[0xFB, 0xEF])])),
        (15, 1),
        "also 16"
    );
    assert_eq!(
        check(&changed(&[(at + 3, &[0xF0, 1, 4])])),
        (15, 1),
        "after kind 0"
    );
    // Two areas of one AS, ascending as bytes: the kind comes before the area.
    let areas = [domain(64496, 1, &[9, 9, 9, 9]), domain(64496, 2, &[1])];
    assert_eq!(check(&file(0, &areas, &[])), (0, 0));
    let swapped = [areas[1].clone(), areas[0].clone()];
    assert_eq!(check(&file(0, &swapped, &[])), (15, 1));
}

#[test]
fn a_record_passes_all_checks_before_the_next() {
    let wrong_range = (record(0), &[0u8, 0, 0, 1][..]);
    let malformed = (record(1) + 4, &[3u8][..]);
    assert_eq!(check(&changed(&[wrong_range, malformed])), (16, 0));
    assert_eq!(
        check(&changed(&[(record(3) + 4, &[1]), (record(4), &[0, 9])])),
        (16, 3)
    );
}

#[test]
fn malformed_hops() {
    let at = record(5);
    for (offset, wrong) in [
        (0, &[0u8, 3][..]),
        (0, &[1, 1]),
        (2, &[0, 3]),
        (12, &[1, 0, 0, 0]),
        (12, &[1, 0, 0, 1]),
        (12, &[0x80, 0, 0, 0]),
        (12, &[0xFF, 0xFF, 0xFF, 0xFF]),
        (16, &[0x7F, 0x80, 0, 0]),
        (16, &[0x7F, 0xC0, 0, 0]),
        (16, &[0x80, 0, 0, 0]),
    ] {
        assert_eq!(
            check(&changed(&[(at + offset, wrong)])),
            (17, 5),
            "{offset} {wrong:?}"
        );
    }
    for cost in [
        &[0u8, 0, 0xFF, 0xFF][..],
        &[0, 1, 0, 0],
        &[0, 0xFF, 0xFF, 0xFF],
    ] {
        assert_eq!(check(&changed(&[(at + 12, cost)])), (0, 0), "{cost:?}");
    }
    assert_eq!(
        check(&changed(&[(at + 16, &[0x7F, 0x7F, 0xFF, 0xFF])])),
        (0, 0)
    );
}

#[test]
fn hops_out_of_order() {
    // Record 6 is PU; with v = T it equals record 5, whatever the cost.
    assert_eq!(check(&changed(&[(record(6) + 11, &[21])])), (18, 6));
    assert_eq!(
        check(&changed(&[(record(6) + 3, &[1])])),
        (18, 6),
        "E below"
    );
    // Order goes before the reserved range, form before order.
    assert_eq!(check(&changed(&[(record(6) + 4, &[0])])), (18, 6));
    assert_eq!(
        check(&changed(&[(record(6) + 4, &[0]), (record(6) + 12, &[1])])),
        (17, 6)
    );
}

#[test]
fn both_nodes_lie_in_the_reserved_ranges() {
    // TZ with a v above it, and the last hop with a u above it.
    assert_eq!(check(&changed(&[(record(9) + 10, &[3, 0])])), (16, 9));
    assert_eq!(check(&changed(&[(record(10) + 6, &[3, 0])])), (16, 10));
}

/// One hop of a live profile from `u` to `v`.
fn live(u: u32, v: u32) -> (u32, u32) {
    check(&file(1, &[domain(1, 0, &[])], &[hop(0, 0, u, v, 0, 0)]))
}

#[test]
fn edges_of_the_reserved_addresses() {
    for (first, last) in [
        (0xC000_0200, 0xC000_02FF),
        (0xC633_6400, 0xC633_64FF),
        (0xCB00_7100, 0xCB00_71FF),
    ] {
        assert_eq!(live(first - 1, last + 1), (0, 0));
        assert_eq!(live(last + 1, first - 1), (0, 0));
        for inside in [first, last] {
            assert_eq!(live(inside, 0), (16, 1));
            assert_eq!(live(0, inside), (16, 1));
            let test = file(
                0,
                &[domain(64496, 0, &[])],
                &[hop(0, 0, inside, inside, 0, 0)],
            );
            assert_eq!(check(&test), (0, 0), "u = v is fine");
        }
    }
}

#[test]
fn edges_of_the_reserved_as_numbers_in_class_1() {
    for as_number in [64495, 64512, 65535, 65552, 1, u32::MAX] {
        assert_eq!(check(&file(1, &[domain(as_number, 0, &[])], &[])), (0, 0));
    }
    for as_number in [64496, 64511, 65536, 65551] {
        assert_eq!(check(&file(1, &[domain(as_number, 0, &[])], &[])), (16, 0));
    }
}

fn node(n: u32) -> u32 {
    0xC000_0200 + n
}

fn two_domains() -> [Vec<u8>; 2] {
    [domain(64496, 0, &[]), domain(64497, 0, &[])]
}

#[test]
fn seventeen_entry_nodes() {
    let to_17: Vec<Vec<u8>> = (0..17).map(|n| hop(0, 1, node(0), node(n), 0, 0)).collect();
    assert_eq!(check(&file(0, &two_domains(), &to_17[..16])), (0, 0));
    assert_eq!(check(&file(0, &two_domains(), &to_17)), (19, 2 + 16));
    let inside: Vec<Vec<u8>> = (0..17).map(|n| hop(0, 0, node(0), node(n), 0, 0)).collect();
    assert_eq!(check(&file(0, &two_domains(), &inside)), (0, 0));
}

#[test]
fn sixteen_entry_nodes_each_way_and_many_hops() {
    let mut hops = Vec::new();
    for (from, to) in [(0, 1), (1, 0)] {
        for u in 0..3 {
            for v in 0..16 {
                hops.push(hop(from, to, node(u), node(100 * to as u32 + v), 0, 0));
            }
        }
    }
    assert_eq!(check(&file(0, &two_domains(), &hops)), (0, 0));
    // The seventeenth comes with the third u, after 3 times 16 hops.
    hops.insert(48, hop(0, 1, node(2), node(116), 0, 0));
    assert_eq!(check(&file(0, &two_domains(), &hops)), (19, 2 + 48));
}

#[test]
fn nineteen_is_told_after_every_hop_passed() {
    let mut hops: Vec<Vec<u8>> = (0..17).map(|n| hop(0, 1, node(0), node(n), 0, 0)).collect();
    hops.push(hop(1, 1, node(0), node(0), 16_777_216, 0));
    assert_eq!(check(&file(0, &two_domains(), &hops)), (17, 2 + 17));
}
