//! Include lists whose meaning or fault is known from how they were made.

use crate::common;
use reference::generate;
use reference::generate::PlannedInclude;
use std::collections::BTreeMap;

type Seen = BTreeMap<u32, usize>;

/// How often each number came up.
fn read_all(cases: impl Iterator<Item = PlannedInclude>) -> Seen {
    let mut seen = Seen::new();
    for (seed, case) in cases.enumerate() {
        let read = common::read(&case.profile, case.ingress, &case.include);
        assert_eq!(read, case.expected, "seed {seed}");
        let number = read.err().map_or(0, |(number, _)| number);
        *seen.entry(number).or_default() += 1;
    }
    println!("{seen:?}");
    seen
}

#[test]
fn a_list_means_what_it_was_made_for() {
    let seen = read_all((0..12_000).map(generate::planned_include));
    for number in [0].into_iter().chain(23..=32) {
        assert!(seen.contains_key(&number), "{number} of {seen:?}");
    }
}

#[test]
fn a_list_with_exrs_means_what_it_was_made_for() {
    let seen = read_all((0..20_000).map(generate::planned_exrs_include));
    for number in [0].into_iter().chain(22..=32).chain([42]) {
        let count = seen.get(&number).copied().unwrap_or(0);
        assert!(count >= 10, "{number} of {seen:?}");
    }
}
