//! The tree: the library beside the Rust program that makes the same checks and
//! one pass over the hop records for each domain of the sequence and round.

use crate::race::{race, share};
use crate::two_rounds::{two_rounds, with_exrs, EXRS_NAMES, NAMES};
use reference::{generate, Request};
use tests::by_hand::{ask, profile_w, SHORT};
use tests::lists::excluded;
use tests::tree::MOST_ENTRIES;

/// The largest profile with a sequence of 16, then with a full exclude list,
/// then in two rounds, then with 15 EXRS that fill the include list, in one round
/// and in two, then profile W.
pub fn tree() {
    let largest = generate::largest_request(0);
    let request = largest.request();
    race_tree("tree, 16 domains", &request, 241);
    let whole = || built(tests::tree::tree, &request);
    let check = || tests::check_profile(request.profile, &mut [0]);
    share("tree, of that check_profile alone", check, whole);
    let read = || {
        let (mut domains, mut pinned, mut pins) = ([0; 16], [0; 16], [0; 16]);
        let (mut exrs_counts, mut exrs) = ([0; 16], [0; 1_024]);
        tests::read_include(
            request.profile,
            request.ingress,
            request.include,
            &mut domains,
            &mut pinned,
            &mut pins,
            &mut exrs_counts,
            &mut exrs,
            &mut [0; 3],
        )
    };
    share("tree, of that read_include alone", read, whole);

    // Nodes that the profile lacks, so that each entry is held against all.
    let lacked = (0..128).flat_map(|i| excluded(0xCB00_7100 + i, 32));
    let exclude: Vec<u8> = lacked.collect();
    let full = Request {
        exclude: &exclude,
        ..request
    };
    race_tree("tree, 16 domains, 1,024 bytes excluded", &full, 241);
    for (name, case) in NAMES.iter().zip(two_rounds()) {
        race_tree(&format!("tree, 16 domains, {name}"), &case.request(), 241);
    }
    for (name, case) in EXRS_NAMES.iter().zip(with_exrs()) {
        race_tree(&format!("tree, 16 domains, {name}"), &case.request(), 241);
    }

    let w = profile_w();
    race_tree("tree, profile W", &ask(&w, &SHORT), 5);
}

type Tree = fn(&Request, &mut [u32], &mut [u32], &mut [u8], &mut [u32], &mut [u32; 4]) -> u32;

type Buffers = ([[u32; MOST_ENTRIES]; 3], [u8; MOST_ENTRIES]);

fn race_tree(name: &str, request: &Request, entries: u32) {
    let (number, numbers, _) = built(tests::tree::tree, request);
    assert_eq!((number, numbers[1]), (0, entries), "{name}");
    race(
        name,
        || built(tests::tree::tree, request),
        || built(reference::one_pass_tree, request),
    );
}

fn built(call: Tree, request: &Request) -> (u32, [u32; 4], Buffers) {
    let (mut words, mut reachable) = ([[0; MOST_ENTRIES]; 3], [0; MOST_ENTRIES]);
    let [level, address, cost] = &mut words;
    let mut numbers = [0; 4];
    let number = call(request, level, address, &mut reachable, cost, &mut numbers);
    (number, numbers, (words, reachable))
}
