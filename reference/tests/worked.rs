//! Document 01's worked cases on profile W, one test each.

use crate::common;
use common::*;

/// Paths of one total, found in the first round.
fn totals(paths: &[[u32; 4]], total: u32) -> Vec<(Vec<u32>, u32, u32)> {
    paths.iter().map(|path| (path.to_vec(), total, 1)).collect()
}

const SPUZ: [u32; 4] = [S, P, U, Z];
const SQTZ: [u32; 4] = [S, Q, T, Z];
const SQUZ: [u32; 4] = [S, Q, U, Z];

#[test]
fn profile_w_is_232_bytes_with_the_header_given() {
    let w = profile_w();
    assert_eq!(w.len(), 232);
    assert_eq!(w[..12], [0x44, 0x53, 0x50, 0, 1, 0, 0, 3, 0, 8, 0, 0]);
    assert_eq!(check(&w), (0, 0));
}

fn tree_of_w() -> Vec<Entry> {
    vec![
        (0, S, 1, 14),
        (1, P, 1, 4),
        (1, Q, 1, 11),
        (2, T, 1, 2),
        (2, U, 1, 3),
    ]
}

#[test]
fn tree_of_the_short_form() {
    let w = profile_w();
    assert_eq!(tree(&ask(&w, &SHORT)), (tree_of_w(), 8, 1));
}

#[test]
fn the_long_form_means_the_same() {
    let w = profile_w();
    let long = [5, 8, 0, 0, 0, 0, 0xFB, 0xF1, 5, 8, 0, 0, 0, 0, 0xFB, 0xF2];
    assert_eq!(read(&w, 0, &long), read(&w, 0, &SHORT));
    assert_eq!(
        read(&w, 0, &long),
        without_exrs([(0, None), (1, None), (2, None)])
    );
    assert_eq!(tree(&ask(&w, &long)), (tree_of_w(), 8, 1));
}

#[test]
fn three_paths_of_14_then_2() {
    let w = profile_w();
    let request = ask(&w, &SHORT);
    let numbers = [0, 14, 0x4160_0000, 1];
    assert_eq!(first(&request, 4), (0, numbers, SPUZ.to_vec()));
    assert_eq!(next(&request, &SPUZ, 4), (0, numbers, SQTZ.to_vec()));
    assert_eq!(next(&request, &SQTZ, 4), (0, numbers, SQUZ.to_vec()));
    assert_eq!(next(&request, &SQUZ, 4), (2, [0; 4], vec![OLD; 4]));
}

#[test]
fn next_after_a_path_that_is_not_listed() {
    let w = profile_w();
    let found = next(&ask(&w, &SHORT), &[S, P, T, Z], 4);
    assert_eq!(found, (0, [0, 14, 0x4160_0000, 1], SPUZ.to_vec()));
}

#[test]
fn a_bound_of_14_admits_all_three() {
    let w = profile_w();
    let mut request = ask(&w, &SHORT);
    request.bound_counts = true;
    request.bound_bits = 14.0f32.to_bits();
    assert_eq!(listing(&request, 4), totals(&[SPUZ, SQTZ, SQUZ], 14));
}

#[test]
fn a_bound_of_13_admits_none() {
    let w = profile_w();
    let mut request = ask(&w, &SHORT);
    request.bound_counts = true;
    request.bound_bits = 13.0f32.to_bits();
    assert_eq!(first(&request, 4), (1, [0; 4], vec![OLD; 4]));
    assert_eq!(next(&request, &[0; 4], 4), (2, [0; 4], vec![OLD; 4]));
    assert_eq!(tree(&request), (tree_of_w(), 8, 1), "the tree has no bound");
}

#[test]
fn bandwidth_just_above_100_loses_qu() {
    let w = profile_w();
    let mut request = ask(&w, &SHORT);
    request.bandwidth_bits = 0x42C8_0001;
    assert_eq!(listing(&request, 4), totals(&[SPUZ, SQTZ], 14));
}

#[test]
fn excluding_q_leaves_one() {
    let w = profile_w();
    let mut request = ask(&w, &SHORT);
    request.exclude = &[1, 8, 0xC0, 0, 2, 0x0C, 0x20, 1];
    assert_eq!(listing(&request, 4), totals(&[SPUZ], 14));
}

#[test]
fn an_entry_constraint_on_u() {
    let w = profile_w();
    let include = [
        0x20, 4, 0xFB, 0xF1, 1, 8, 0xC0, 0, 2, 22, 32, 0, 0x20, 4, 0xFB, 0xF2,
    ];
    assert_eq!(
        read(&w, 0, &include),
        without_exrs([(0, None), (1, None), (2, Some(U))])
    );
    assert_eq!(listing(&ask(&w, &include), 4), totals(&[SPUZ, SQUZ], 14));
}

#[test]
fn an_empty_include_list() {
    let w = profile_w();
    let request = ask(&w, &[]);
    assert_eq!(first(&request, 2), (1, [0; 4], vec![OLD; 2]));
    assert_eq!(tree(&request), (vec![(0, S, 0, 0)], 0, 1));
}

#[test]
fn a_domain_that_comes_back() {
    let w = profile_w();
    let include = [5, 8, 0, 0, 0, 0, 0xFB, 0xF1, 5, 8, 0, 0, 0, 0, 0xFB, 0xF0];
    assert_eq!(read(&w, 0, &include), Err((30, 8)));
    let refused = (30, [8, 0, 0, 0], vec![OLD; 4]);
    assert_eq!(first(&ask(&w, &include), 4), refused);
}

#[test]
fn reserved_as_numbers_pass_in_class_0() {
    for as_number in [64511, 65536, 65551] {
        assert_eq!(check(&file(0, &[domain(as_number, 0, &[])], &[])), (0, 0));
    }
    for as_number in [64512, 65535, 65552] {
        assert_eq!(check(&file(0, &[domain(as_number, 0, &[])], &[])), (16, 0));
    }
}

/// Hops inside one domain from one end point of 192.0.2.0/24 to another.
fn inner_hops(count: u32) -> Vec<Vec<u8>> {
    let node = |n: u32| 0xC000_0200 + n;
    (0..count)
        .map(|i| hop(0, 0, node(i / 200), node(i % 200), 0, 0))
        .collect()
}

#[test]
fn three_thousand_hops_pass() {
    let domains = [domain(64496, 0, &[])];
    assert_eq!(check(&file(0, &domains, &inner_hops(3000))), (0, 0));
    assert_eq!(check(&file(0, &domains, &inner_hops(3001))), (12, 0));
}

#[test]
fn an_is_is_area_of_three_bytes() {
    let domains = [domain(64496, 0, &[]), domain(64497, 2, &[0x49, 0, 1])];
    let profile = file(0, &domains, &[]);
    let mut include = vec![0x20, 4, 0xFB, 0xF1];
    include.extend([7, 8, 3, 0, 0x49, 0, 1, 0]);
    assert_eq!(
        read(&profile, 0, &include),
        without_exrs([(0, None), (1, None)])
    );
    for length in [0, 14] {
        include[6] = length;
        assert_eq!(read(&profile, 0, &include), Err((26, 4)));
    }
}

#[test]
fn figure_3_renumbered() {
    let area = |n: u8| [0, 0, 0, n];
    let domains = [
        domain(64500, 1, &area(0)),
        domain(64501, 1, &area(0)),
        domain(64501, 1, &area(4)),
    ];
    let profile = file(0, &domains, &[]);
    let as_number = |low: u8| vec![5, 8, 0, 0, 0, 0, 0xFB, low];
    let ospf = |n: u8| vec![6, 8, 0, 0, 0, 0, 0, n];
    let short = [as_number(0xF5), ospf(0), ospf(4)].concat();
    let long = [as_number(0xF4), ospf(0), as_number(0xF5), ospf(0), ospf(4)].concat();
    let sequence = without_exrs([(0, None), (1, None), (2, None)]);
    assert_eq!(read(&profile, 0, &short), sequence);
    assert_eq!(read(&profile, 0, &long), sequence);
    assert_eq!(read(&profile, 0, &as_number(0xF5)), Err((29, 0)));

    let mut out = [0xAA; 41];
    let mut numbers = [7; 2];
    let written = reference::write_list(
        &profile,
        &[0, 1, 2],
        &[0; 3],
        &[0; 3],
        &[0; 3],
        &[],
        &mut out,
        &mut numbers,
    );
    assert_eq!((written, numbers), (0, [0, 40]));
    assert_eq!(out[..40], long);
    assert_eq!(out[40], 0xAA);
}

#[test]
fn the_cheapest_entry_is_not_taken_first() {
    // A search that takes Q, the cheapest entry of 64497, never sees SPUZ.
    let w = profile_w();
    let paths = listing(&ask(&w, &SHORT), 4);
    assert!(paths.contains(&(SPUZ.to_vec(), 14, 1)));
}

#[test]
fn cost_0_is_a_link() {
    let profile = file(0, &[domain(64496, 0, &[])], &[hop(0, 0, S, Z, 0, B100)]);
    let request = ask(&profile, &[]);
    assert_eq!(first(&request, 2), (0, [0, 0, 0, 1], vec![S, Z]));
    assert_eq!(tree(&request), (vec![(0, S, 1, 0)], 1, 1));
}
