//! The fast search against the listing of every path, on small requests.

use crate::common;
use reference::generate::{self, RequestCase};
use reference::plain::Plain;

/// Above this many walks a case is too large to list.
const MOST_WALKS: u128 = 20_000;

fn plain(case: &RequestCase) -> Option<Plain<'_>> {
    Plain::new(&case.request())
        .ok()
        .filter(|plain| plain.walk_count() <= MOST_WALKS)
}

#[test]
fn tree_is_the_least_over_all_suffixes() {
    let (mut compared, mut reached) = (0, 0);
    for seed in 0..3000 {
        let case = generate::small_request_case(seed);
        let Some(plain) = plain(&case) else { continue };
        let (entries, tally, round) = plain.tree();
        let expected: Vec<_> = entries
            .iter()
            .map(|e| {
                (
                    e.level,
                    e.address,
                    u8::from(e.least.is_some()),
                    e.least.unwrap_or(0),
                )
            })
            .collect();
        assert_eq!(
            common::tree(&case.request()),
            (expected, tally, round),
            "seed {seed}"
        );
        compared += 1;
        reached += usize::from(entries[0].least.is_some());
    }
    assert!(
        compared > 2500 && reached > 1000,
        "{compared} compared, {reached} reached"
    );
}

#[test]
fn first_and_next_go_through_the_listing() {
    let (mut compared, mut some, mut several) = (0, 0, 0);
    for seed in 0..3000 {
        let case = generate::small_request_case(seed);
        let Some(plain) = plain(&case) else { continue };
        let listed = plain.listing();
        let paths = listed.paths;
        let expected: Vec<_> = paths
            .iter()
            .map(|path| (path.clone(), listed.total.unwrap_or(0), listed.round))
            .collect();
        let found = common::listing(&case.request(), plain.path_length());
        assert_eq!(found, expected, "seed {seed}");
        compared += 1;
        some += usize::from(!paths.is_empty());
        several += usize::from(paths.len() > 1);
    }
    assert!(
        compared > 2500 && some > 1000 && several > 400,
        "{compared} {some} {several}"
    );
}

#[test]
fn next_is_the_least_path_greater_than_any_list() {
    let (mut found, mut ended, mut refused) = (0, 0, 0);
    for seed in 0..6000 {
        let case = generate::small_next_case(seed);
        let Some(plain) = plain(&case.request) else {
            continue;
        };
        let listed = plain.listing();
        let length = plain.path_length();
        let (number, numbers, path) =
            common::next(&case.request.request(), &case.given, length + 1);
        if case.given.len() != length {
            assert_eq!(number, 33, "seed {seed}");
            refused += 1;
            continue;
        }
        match listed.paths.iter().find(|path| **path > case.given) {
            Some(least) => {
                let total = listed.total.unwrap();
                let expected = [0, total, (total as f32).to_bits(), listed.round];
                assert_eq!((number, numbers), (0, expected), "seed {seed}");
                assert_eq!((&path[..length], path[length]), (&least[..], common::OLD));
                found += 1;
            }
            None => {
                assert_eq!((number, numbers), (2, [0; 4]), "seed {seed}");
                assert_eq!(path, vec![common::OLD; length + 1]);
                ended += 1;
            }
        }
    }
    assert!(
        found > 500 && ended > 500 && refused > 100,
        "{found} {ended} {refused}"
    );
}

#[test]
fn position_in_the_listing_counts_the_paths() {
    for seed in 0..1000 {
        let case = generate::small_request_case(seed);
        let Some(plain) = plain(&case) else { continue };
        let paths = plain.listing().paths;
        let question = reference::Question::accept(&case.request()).unwrap();
        let counted = reference::ShortestPaths::new(question);
        assert_eq!(counted.count(), paths.len() as u128, "seed {seed}");
        for (position, path) in paths.iter().enumerate() {
            assert_eq!(
                counted.at(position as u128).as_ref(),
                Some(path),
                "seed {seed}"
            );
        }
        assert_eq!(counted.at(paths.len() as u128), None);
    }
}
