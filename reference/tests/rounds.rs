//! The rounds over generated requests: each outcome comes up often, the search
//! agrees with the listing of every path, and each round is what a request
//! without desired exclusions gets.

use crate::common;
use common::desired::{in_round, Decided, Outcomes};
use common::{first, listing, next, tree};
use reference::generate;
use reference::plain::Plain;
use reference::series::{reference_series, series, Call};
use reference::Request;

/// Above this many walks a case is too large to list.
const MOST_WALKS: u128 = 20_000;

fn has_path(request: &Request) -> bool {
    first(request, 17).0 == 0
}

/// The round is told by tree always, by first and next on an answer 0 alone.
#[test]
fn every_outcome_comes_up() {
    let mut outcomes = Outcomes::default();
    for seed in 0..20_000 {
        let case = generate::round_case(seed);
        let request = case.request.request();
        let decided = Decided::of(&request, has_path);
        let round = decided.round();
        assert_eq!(tree(&request).2, round, "seed {seed}");
        let (number, numbers, _) = first(&request, 17);
        let told = if number == 0 { round } else { 0 };
        assert_eq!(numbers[3], told, "seed {seed}");
        let (number, numbers, _) = next(&request, &case.given, 17);
        let told = if number == 0 { round } else { 0 };
        assert_eq!(numbers[3], told, "seed {seed}");
        outcomes.add(decided);
    }
    outcomes.cover("rounds, generated", 1_000, 300);
}

#[test]
fn the_search_agrees_with_the_listing_of_every_path() {
    let mut outcomes = Outcomes::default();
    for seed in 0..12_000 {
        let case = generate::round_case(seed);
        let request = case.request.request();
        let plain = Plain::new(&request).expect("it is accepted");
        if plain.walk_count() > MOST_WALKS {
            continue;
        }
        let (entries, tally, round) = plain.tree();
        let entry = |e: &reference::plain::TreeEntry| {
            let reachable = u8::from(e.least.is_some());
            (e.level, e.address, reachable, e.least.unwrap_or(0))
        };
        let expected = (entries.iter().map(entry).collect(), tally, round);
        assert_eq!(tree(&request), expected, "seed {seed}");

        let listed = plain.listing();
        assert_eq!(listed.round, round, "seed {seed}");
        let total = listed.total.unwrap_or(0);
        let paths = listed.paths.iter();
        let expected: Vec<_> = paths.map(|path| (path.clone(), total, round)).collect();
        assert_eq!(listing(&request, plain.path_length()), expected, "{seed}");

        let decided = Decided::of(&request, has_path);
        assert_eq!(decided.round(), round, "seed {seed}");
        outcomes.add(decided);
    }
    outcomes.cover("rounds, against every path", 1_000, 150);
}

/// Round 1 answers as if all were demanded; round 2 as if only the demanded
/// ones were there, but for the round's number and twice the tally.
#[test]
fn each_round_is_a_request_of_its_own() {
    let plain = (0..8_000).map(|seed| (seed, generate::round_case(seed)));
    let exrs = (0..8_000).map(|seed| (seed, generate::exrs_round_case(seed)));
    for (seed, case) in plain.chain(exrs) {
        let request = case.request.request();
        let (entries, tally, round) = tree(&request);
        let (include, exclude) = in_round(&request, round);
        let alone = Request {
            include: &include,
            exclude: &exclude,
            ..request
        };
        let expected = tree(&alone);
        assert_eq!(expected.2, 1, "seed {seed}");
        assert_eq!((entries, tally), (expected.0, round * expected.1), "{seed}");
        let renamed = |(number, mut numbers, path): (u32, [u32; 4], Vec<u32>)| {
            if number == 0 {
                numbers[3] = round;
            }
            (number, numbers, path)
        };
        assert_eq!(first(&request, 18), renamed(first(&alone, 18)), "{seed}");
        let found = next(&request, &case.given, 18);
        assert_eq!(found, renamed(next(&alone, &case.given, 18)), "seed {seed}");
    }
}

/// Every answer 0 of a series names the round that the tree names.
#[test]
fn a_series_names_the_round() {
    let mut answers = [0; 3];
    for seed in 0..3_000 {
        let case = generate::round_case(seed);
        let request = case.request.request();
        let calls = [Call::Next, Call::First, Call::Next, Call::First, Call::Next];
        let mut run = vec![vec![9; 17]; calls.len()];
        run[3].truncate(1);
        let mut book = run.clone();
        let outcomes = series(&request, &calls, &mut run);
        assert_eq!(outcomes, reference_series(&request, &calls, &mut book));
        assert_eq!(run, book, "seed {seed}");
        let round = tree(&request).2;
        for outcome in outcomes {
            let told = if outcome.number == 0 { round } else { 0 };
            assert_eq!(outcome.numbers[3], told, "seed {seed}");
            answers[told as usize] += 1;
        }
    }
    println!("\nrounds, series: {answers:?} answers without a round, of 1, of 2");
    assert!(answers.iter().all(|&count| count > 500));
}
