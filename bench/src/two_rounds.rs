//! The largest profile in two rounds, each of them whole: the exclusions that
//! are only desired rule out all entry nodes of the second domain, which a tree
//! worked out from the last domain on meets last but one. With EXRS also in one.

use reference::generate::{self, RequestCase};
use reference::Request;
use tests::lists::{excluded, marked};
use tests::tree::build;

pub const NAMES: [&str; 2] = ["two rounds", "two rounds, 1,024 bytes excluded"];

/// One exclusion alone; then after as many nodes that the profile lacks as
/// there is place for, demanded, so that in both rounds each entry is held
/// against all.
pub fn two_rounds() -> [RequestCase; 2] {
    [0, 127].map(|others| {
        let mut case = generate::largest_request(0);
        let lacked = (0..others).flat_map(|i| excluded(0xCB00_7100 + i, 32));
        // 198.51.100.16/28.
        let entries = marked(excluded(0xC633_6410, 28));
        case.exclude = lacked.chain(entries).collect();
        all_in(2, &case.request());
        case
    })
}

pub const EXRS_NAMES: [&str; 2] = ["15 EXRS", "15 EXRS, two rounds"];

/// An EXRS for each domain but the first, 1,024 bytes of include list in all, of
/// nodes that the profile lacks; and the same in two rounds.
pub fn with_exrs() -> [RequestCase; 2] {
    [1, 2].map(|rounds| {
        let case = generate::largest_exrs_request(0, rounds);
        assert_eq!(case.include.len(), 1_024);
        all_in(rounds, &case.request());
        case
    })
}

/// All hops examined in each round, and every entry reachable in the end.
fn all_in(rounds: u32, request: &Request) {
    let tree = build(request, "all rounds").expect("it is accepted");
    assert_eq!((tree.hops_examined, tree.round), (3_000 * rounds, rounds));
    assert!(tree.entries.iter().all(|entry| entry.2.is_some()));
}
