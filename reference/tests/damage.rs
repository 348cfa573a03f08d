//! A profile with one thing wrong gets the number and place of that thing.

use crate::common;
use reference::generate;
use std::collections::BTreeMap;

#[test]
fn one_thing_wrong_is_found_at_its_place() {
    let mut places: BTreeMap<u32, std::collections::BTreeSet<usize>> = BTreeMap::new();
    for seed in 0..8000 {
        let damaged = generate::damaged_profile(seed);
        let expected = (damaged.number, damaged.place as u32);
        assert_eq!(common::check(&damaged.bytes), expected, "seed {seed}");
        places
            .entry(damaged.number)
            .or_default()
            .insert(damaged.place);
    }
    let found: Vec<u32> = places.keys().copied().collect();
    assert_eq!(found, (10..=19).collect::<Vec<u32>>());
    for number in 14..=19 {
        assert!(
            places[&number].len() > 30,
            "{number}: {} places",
            places[&number].len()
        );
    }
}

#[test]
fn a_valid_profile_passes() {
    for seed in 0..3000 {
        assert_eq!(
            common::check(&generate::valid_profile(seed)),
            (0, 0),
            "seed {seed}"
        );
    }
}
