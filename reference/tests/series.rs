//! A run of first and next against document 01's book.

use crate::common;
use common::{ask, profile_w, P, Q, S, SHORT, T, U, Z};
use reference::generate;
use reference::series::{reference_series, series, Call};
use std::collections::BTreeMap;

#[test]
fn every_series_is_the_books() {
    let mut answers: BTreeMap<(bool, u32), usize> = BTreeMap::new();
    let plain = (0..6000).map(|seed| (seed, generate::series_case(seed)));
    let exrs = (0..3000).map(|seed| (seed, generate::exrs_series_case(seed)));
    for (seed, case) in plain.chain(exrs) {
        let request = case.request.request();
        let (mut run, mut book) = (case.buffers.clone(), case.buffers.clone());
        let outcomes = series(&request, &case.calls, &mut run);
        let expected = reference_series(&request, &case.calls, &mut book);
        assert_eq!(outcomes, expected, "seed {seed}");
        assert_eq!(run, book, "seed {seed}");
        assert_eq!(outcomes.len(), case.calls.len());
        for (call, outcome) in case.calls.iter().zip(&outcomes) {
            *answers
                .entry((*call == Call::First, outcome.number))
                .or_default() += 1;
        }
    }
    for wanted in [
        (true, 0),
        (true, 1),
        (true, 34),
        (false, 0),
        (false, 2),
        (false, 33),
        (false, 34),
    ] {
        assert!(
            answers.get(&wanted).is_some_and(|&n| n > 100),
            "{wanted:?} of {answers:?}"
        );
    }
}

/// Document 01's words for the book, followed by hand on profile W.
#[test]
fn a_series_on_profile_w() {
    use Call::{First, Next};
    let w = profile_w();
    let calls = [
        Next, First, Next, Next, Next, Next, First, Next, First, Next,
    ];
    let rooms = [4, 4, 5, 3, 4, 4, 3, 9, 4, 4];
    let mut buffers: Vec<Vec<u32>> = rooms.iter().map(|&n| vec![9; n]).collect();
    let outcomes = series(&ask(&w, &SHORT), &calls, &mut buffers);
    let numbers: Vec<u32> = outcomes.iter().map(|o| o.number).collect();
    assert_eq!(numbers, [33, 0, 0, 34, 0, 2, 34, 2, 0, 0]);
    assert_eq!(buffers[1], [S, P, U, Z]);
    assert_eq!(buffers[2], [S, Q, T, Z, 9]);
    assert_eq!(buffers[3], [9; 3]);
    assert_eq!(buffers[4], [S, Q, U, Z]);
    assert_eq!(buffers[5], [9; 4]);
    assert_eq!(buffers[7], [9; 9]);
    assert_eq!(buffers[8], [S, P, U, Z]);
    assert_eq!(buffers[9], [S, Q, T, Z]);
    for outcome in &outcomes {
        let expected = if outcome.number == 0 {
            [0, 14, 0x4160_0000, 1]
        } else {
            [0; 4]
        };
        assert_eq!(outcome.numbers, expected);
    }
}
