//! Generated requests with EXRS: each way in which an X inside an EXRS decides
//! the round comes up often, the search agrees with the listing of every path,
//! and so do the calls through a PCReq.

use crate::common;
use common::desired::{any_desired, inside_exrs, Decided, Outcomes};
use common::{first, listing, next, tree};
use reference::generate;
use reference::plain::Plain;
use reference::{PcReq, Request};
use std::collections::BTreeMap;

/// Above this many walks a case is too large to list.
const MOST_WALKS: u128 = 20_000;

fn has_path(request: &Request) -> bool {
    first(request, 17).0 == 0
}

/// How the X bits inside the EXRS took part, and whether there is a path.
fn by_exrs(request: &Request, decided: Decided) -> &'static str {
    let (inside, outside) = (
        any_desired(&inside_exrs(request.include)),
        any_desired(request.exclude),
    );
    match decided {
        Decided::ForTheFirst if inside => "round 1 has a path, X inside",
        Decided::WithoutASecond(_) => "round 1 has none, X nowhere",
        Decided::ForTheSecond(_) if !outside => "round 2 has a path, X inside alone",
        Decided::InVain(_) if !outside => "round 2 has none, X inside alone",
        _ => "other",
    }
}

#[test]
fn every_outcome_comes_up() {
    let mut outcomes = Outcomes::default();
    let mut ways: BTreeMap<&str, usize> = BTreeMap::new();
    for seed in 0..16_000 {
        let case = generate::exrs_round_case(seed);
        let request = case.request.request();
        assert!(!inside_exrs(request.include).is_empty(), "seed {seed}");
        let decided = Decided::of(&request, has_path);
        let round = decided.round();
        assert_eq!(tree(&request).2, round, "seed {seed}");
        let (number, numbers, _) = first(&request, 17);
        let told = if number == 0 { round } else { 0 };
        assert_eq!(numbers[3], told, "seed {seed}");
        let (number, numbers, _) = next(&request, &case.given, 17);
        let told = if number == 0 { round } else { 0 };
        assert_eq!(numbers[3], told, "seed {seed}");
        outcomes.add(decided);
        *ways.entry(by_exrs(&request, decided)).or_default() += 1;
    }
    outcomes.cover("EXRS, generated", 1_000, 100);
    println!("{ways:#?}");
    for (way, &count) in &ways {
        assert!(count >= 500, "{way}: {count}");
    }
    assert_eq!(ways.len(), 5);
}

#[test]
fn the_search_agrees_with_the_listing_of_every_path() {
    let (mut compared, mut rounds) = (0, [0; 3]);
    for seed in 0..12_000 {
        let case = generate::exrs_round_case(seed);
        let request = case.request.request();
        let plain = Plain::new(&request).expect("it is accepted");
        if plain.walk_count() > MOST_WALKS {
            continue;
        }
        let (entries, tally, round) = plain.tree();
        let entry = |e: &reference::plain::TreeEntry| {
            let reachable = u8::from(e.least.is_some());
            (e.level, e.address, reachable, e.least.unwrap_or(0))
        };
        let expected = (entries.iter().map(entry).collect(), tally, round);
        assert_eq!(tree(&request), expected, "seed {seed}");
        let listed = plain.listing();
        let total = listed.total.unwrap_or(0);
        let paths = listed.paths.iter();
        let expected: Vec<_> = paths.map(|path| (path.clone(), total, round)).collect();
        assert_eq!(listing(&request, plain.path_length()), expected, "{seed}");
        compared += 1;
        rounds[round as usize] += 1;
    }
    println!("{compared} compared, rounds {rounds:?}");
    assert!(compared > 10_000 && rounds[1] > 3_000 && rounds[2] > 3_000);
}

/// Without its EXRS a list crosses the same domains, by the same entry nodes;
/// they alone may make paths dearer or take them away in round 1.
#[test]
fn exrs_only_take_paths_away() {
    let (mut dearer, mut gone, mut same) = (0, 0, 0);
    for seed in 0..6_000 {
        let case = generate::exrs_round_case(seed);
        let mut request = case.request.request();
        (request.bound_counts, request.exclude) = (false, &[]);
        let bare: Vec<u8> = common::desired::subobjects(request.include)
            .into_iter()
            .filter(|piece| piece[0] != 33)
            .flatten()
            .copied()
            .collect();
        let without = Request {
            include: &bare,
            ..request
        };
        let free = first(&without, 17);
        let held = first(&request, 17);
        match (held.0, held.1[3]) {
            (1, _) => gone += 1,
            (0, 1) if held.1[1] > free.1[1] => dearer += 1,
            (0, 1) => {
                assert_eq!(held.1, free.1, "seed {seed}");
                same += 1;
            }
            _ => {
                assert_eq!((held.0, free.0), (0, 0), "seed {seed}");
                assert!(held.1[1] >= free.1[1], "seed {seed}");
            }
        }
    }
    println!("{dearer} dearer, {gone} without a path, {same} of the same total");
    assert!(dearer > 300 && gone > 300 && same > 300);
}

#[test]
fn a_pcreq_with_exrs_asks_the_same() {
    let mut found = [0; 2];
    for seed in 0..4_000 {
        let mut case = generate::exrs_round_case(seed);
        let (message, carried) = generate::carrying(seed, &case.request);
        case.request = carried;
        let request = case.request.request();
        let asked = PcReq {
            profile: request.profile,
            ingress: request.ingress,
            message: &message,
        };
        let (mut path, mut numbers) = (vec![common::OLD; 18], [7; 4]);
        let number = reference::pcreq_first(&asked, &mut path, &mut numbers);
        assert_eq!((number, numbers, path), first(&request, 18), "seed {seed}");
        let (mut path, mut numbers) = (vec![common::OLD; 18], [7; 4]);
        let given = &case.given;
        let number = reference::pcreq_next(&asked, given, &mut path, &mut numbers);
        assert_eq!((number, numbers, path), next(&request, given, 18));
        found[usize::from(has_path(&request))] += 1;
    }
    assert!(found.iter().all(|&count| count > 500), "{found:?}");
}
