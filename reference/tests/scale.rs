//! The largest profile and the one with the most shortest paths.

use crate::common;
use reference::generate::{self, EQUAL_PATHS_WIDTHS};
use reference::{reference_series, series, Call, Question, ShortestPaths};
use std::collections::HashMap;
use std::time::{Duration, Instant};

#[test]
fn the_largest_profile_is_answered_at_once() {
    for seed in 0..20 {
        assert_eq!(generate::largest_profile(seed).len(), 61_292);
        let case = generate::largest_request(seed);
        assert_eq!(common::check(&case.profile), (0, 0));
        assert_eq!(
            common::read(&case.profile, 0, &case.include).unwrap().len(),
            16
        );
        let start = Instant::now();
        let (entries, tally, round) = common::tree(&case.request());
        assert_eq!((entries.len(), tally, round), (1 + 15 * 16, 3000, 1));
        let (number, numbers, path) = common::first(&case.request(), 17);
        assert_eq!((number, numbers[1]), (0, entries[0].3));
        let (number, ..) = common::next(&case.request(), &path, 17);
        assert!(number == 0 || number == 2);
        assert!(start.elapsed() < Duration::from_secs(2), "seed {seed}");
    }
}

/// The least total worked out from the source on, the other way round.
fn forward_least(profile: &[u8], source: u32, destination: u32) -> Option<u64> {
    let word = |at: usize| u32::from_be_bytes(profile[at..at + 4].try_into().unwrap());
    let mut reached: HashMap<u32, u64> = HashMap::from([(source, 0)]);
    for i in 0..16u32 {
        let pair = i << 16 | (i + 1).min(15);
        let mut onward = HashMap::new();
        for at in (12 + 64 * 20..profile.len())
            .step_by(20)
            .filter(|&at| word(at) == pair)
        {
            if let Some(before) = reached.get(&word(at + 4)) {
                let total = before + u64::from(word(at + 12));
                let least = onward.entry(word(at + 8)).or_insert(total);
                *least = total.min(*least);
            }
        }
        reached = onward;
    }
    reached.get(&destination).copied()
}

#[test]
fn the_least_total_of_the_largest_profile() {
    for seed in 0..20 {
        let case = generate::largest_request(seed);
        let (number, numbers, _) = common::first(&case.request(), 17);
        let least = forward_least(&case.profile, case.source, case.destination);
        assert_eq!(
            (number, Some(u64::from(numbers[1]))),
            (0, least),
            "seed {seed}"
        );
    }
}

#[test]
fn the_most_equal_paths_are_counted() {
    let case = generate::equal_paths_request();
    assert_eq!(case.profile.len(), 12 + 20 * (16 + 3000));
    let expected: u128 = EQUAL_PATHS_WIDTHS.iter().map(|&n| n as u128).product();
    let paths = ShortestPaths::new(Question::accept(&case.request()).unwrap());
    assert_eq!(paths.count(), expected);
    assert!(expected > 1 << 58);
    // Every path is listed, so each is at the position its digits spell.
    let last = paths.at(expected - 1).unwrap();
    let all_last: Vec<u32> = (0..15)
        .map(|i| 0xC633_6400 + ((i + 1) * 16 + EQUAL_PATHS_WIDTHS[i] - 1) as u32)
        .collect();
    assert_eq!(last[1..16], all_last);
}

#[test]
fn next_among_the_most_equal_paths() {
    let case = generate::equal_paths_request();
    let paths = ShortestPaths::new(Question::accept(&case.request()).unwrap());
    let count = paths.count();
    let mut random = generate::Random::new(1, 99);
    for _ in 0..100 {
        let position = u128::from(random.step()) % (count - 1);
        let here = paths.at(position).unwrap();
        let (number, numbers, path) = common::next(&case.request(), &here, 17);
        assert_eq!((number, numbers[1]), (0, 16));
        assert_eq!(Some(path), paths.at(position + 1));
    }
    let last = paths.at(count - 1).unwrap();
    assert_eq!(common::next(&case.request(), &last, 17).0, 2);
    assert_eq!(common::next(&case.request(), &[u32::MAX; 17], 17).0, 2);
    let after_nothing = common::next(&case.request(), &[0; 17], 17);
    assert_eq!(Some(after_nothing.2), paths.first());
}

#[test]
fn a_series_among_the_most_equal_paths() {
    let case = generate::equal_paths_request();
    let calls: Vec<Call> = (0..200)
        .map(|i| {
            if i % 150 == 0 {
                Call::First
            } else {
                Call::Next
            }
        })
        .collect();
    let mut run = vec![vec![0; 17]; calls.len()];
    let mut book = run.clone();
    let outcomes = series(&case.request(), &calls, &mut run);
    let expected = reference_series(&case.request(), &calls, &mut book);
    assert_eq!(outcomes, expected);
    assert_eq!(run, book);
    // The last two addresses before the end count through their 14 x 16.
    assert_eq!(run[1][14], run[0][14]);
    assert_eq!(run[16][15], run[0][15]);
    assert_eq!(run[16][14], run[0][14] + 1);
}
