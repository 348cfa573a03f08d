//! first and next: the library against the reference, on generated requests and
//! given lists, on requests whose fault is known from how they were made, and
//! on document 01's worked cases; lengths, capacities, and stack.

use reference::generate::{self, Random};
use reference::Request;
use tests::by_hand::{ask, profile_w, P, Q, S, SHORT, T, U, Z};
use tests::compare::{seeds, Counts, Kinds, Lent};
use tests::lists::{entry, long_as, short_as, verdict};
use tests::paths::{buffer, find_first, find_next, listing, Found, PathCase, LONGEST};
use tests::rows::{row, row_path};
use tests::{stack, wrong};

/// Document 01's numbers for a whole request, with `others` before and after.
fn numbers(before: &[u32], after: &[u32]) -> Vec<u32> {
    let checks: Vec<u32> = (10..=32).collect();
    [before, &checks, after].concat()
}

#[test]
fn generated_firsts() {
    let mut counts = Counts::default();
    for seed in seeds(25_000) {
        let case = generate::request_case(seed);
        let found = PathCase {
            request: case.request(),
            given: None,
            path: Lent::new(&case.path),
        }
        .find(format_args!("request_case({seed})"));
        counts.add(verdict(&found));
    }
    counts.cover("first, generated", &numbers(&[0, 1], &[34]));
    for number in (14..=19).chain(23..=32) {
        let places = counts.places(number);
        assert!(places >= 15, "{number} at {places} places");
    }
}

#[test]
fn generated_nexts() {
    let mut counts = Counts::default();
    let mut kinds = Kinds::default();
    for seed in seeds(25_000) {
        let case = generate::next_case(seed);
        let request = case.request.request();
        let found = PathCase {
            request,
            given: Some(&case.given),
            path: Lent::new(&case.path),
        }
        .find(format_args!("next_case({seed})"));
        counts.add(verdict(&found));
        if let Ok((path, ..)) = &found {
            let same = path.iter().zip(&case.given).take_while(|(a, b)| a == b);
            kinds.add(format!("{:>2} addresses as given", same.count()));
        }
    }
    counts.cover("next, generated", &numbers(&[0, 2], &[33, 34]));
    let wanted: Vec<String> = (0..=5)
        .map(|n| format!("{n:>2} addresses as given"))
        .collect();
    kinds.cover("next, generated", &wanted);
}

/// Any number of things wrong at a time; then a given list that is too short,
/// then too little capacity.
#[test]
fn the_first_thing_wrong_is_told() {
    let mut counts = Counts::default();
    let mut check = |case: PathCase, expected: Option<(u32, u32)>| {
        let found = case.find(format_args!("{expected:?}: {:?}", case.request));
        if let Some(expected) = expected {
            assert_eq!(verdict(&found), expected, "{:?}", case.request);
        }
        counts.add(verdict(&found));
    };
    wrong::combinations(100, |request, told| {
        // Of the include lists that are accepted each subobject is a domain.
        let length = 2 + request.include.len() / 4;
        for (given, capacity, otherwise) in [
            (None, 0, Some((34, 0))),
            (None, length, None),
            (Some(0), 0, Some((33, 0))),
            (Some(length), 0, Some((34, 0))),
            (Some(length), length, None),
        ] {
            let given = given.map(|length| vec![0; length]);
            let case = PathCase {
                request: *request,
                given: given.as_deref(),
                path: buffer(capacity),
            };
            check(case, told.or(otherwise));
        }
    });
    counts.cover(
        "first and next, the first thing wrong",
        &numbers(&[0, 1, 2], &[33, 34, 42]),
    );
    for number in (14..=19).chain(21..=32) {
        assert!(counts.places(number) >= 2, "{number}");
    }
}

// Document 01's worked cases on paths.

const SPUZ: [u32; 4] = [S, P, U, Z];
const SQTZ: [u32; 4] = [S, Q, T, Z];
const SQUZ: [u32; 4] = [S, Q, U, Z];

fn of_14(path: [u32; 4]) -> Found {
    Ok((path.to_vec(), 14, 1))
}

/// The listing is these paths of total 14; then 2, or 1 if there are none.
#[track_caller]
fn lists(request: &Request, paths: &[[u32; 4]]) {
    let (found, end) = listing(request, 100);
    let expected: Vec<_> = paths.iter().map(|path| (path.to_vec(), 14, 1)).collect();
    let none = if paths.is_empty() { 1 } else { 2 };
    assert_eq!((found, end), (expected, (none, [0; 4])));
}

#[test]
fn worked_three_paths_then_2() {
    let w = profile_w();
    let request = ask(&w, &SHORT);
    assert_eq!(find_first(&request, "W"), of_14(SPUZ));
    assert_eq!(find_next(&request, &SPUZ, "W"), of_14(SQTZ));
    assert_eq!(find_next(&request, &SQTZ, "W"), of_14(SQUZ));
    assert_eq!(find_next(&request, &SQUZ, "W"), Err((2, 0)));
    lists(&request, &[SPUZ, SQTZ, SQUZ]);
    let (mut path, mut numbers) = ([0; 5], [7; 4]);
    let number = tests::paths::first(&request, &mut path, &mut numbers);
    assert_eq!((number, numbers), (0, [0, 14, 0x4160_0000, 1]));
    assert_eq!(path, [S, P, U, Z, 0]);
    let long = [long_as(64497), long_as(64498)].concat();
    lists(&ask(&w, &long), &[SPUZ, SQTZ, SQUZ]);
}

#[test]
fn worked_next_after_a_path_that_is_not_listed() {
    let w = profile_w();
    let found = find_next(&ask(&w, &SHORT), &[S, P, T, Z], "after SPTZ");
    assert_eq!(found, of_14(SPUZ));
}

#[test]
fn worked_bounds() {
    let w = profile_w();
    let mut request = ask(&w, &SHORT);
    (request.bound_counts, request.bound_bits) = (true, 14.0f32.to_bits());
    lists(&request, &[SPUZ, SQTZ, SQUZ]);
    request.bound_bits = 13.0f32.to_bits();
    lists(&request, &[]);
    assert_eq!(find_next(&request, &[0; 4], "bound 13"), Err((2, 0)));
}

#[test]
fn worked_bandwidth_exclusion_and_constraint() {
    let w = profile_w();
    let request = Request {
        bandwidth_bits: 0x42C8_0001,
        ..ask(&w, &SHORT)
    };
    lists(&request, &[SPUZ, SQTZ]);
    let request = Request {
        exclude: &[0x01, 0x08, 0xC0, 0x00, 0x02, 0x0C, 0x20, 0x01],
        ..ask(&w, &SHORT)
    };
    lists(&request, &[SPUZ]);
    let u_constrained = [short_as(64497), entry(U), short_as(64498)].concat();
    lists(&ask(&w, &u_constrained), &[SPUZ, SQUZ]);
}

#[test]
fn worked_lists_without_a_path() {
    let w = profile_w();
    let alone = ask(&w, &[]);
    assert_eq!(find_first(&alone, "empty include list"), Err((1, 0)));
    assert_eq!(
        find_next(&alone, &[0; 2], "empty include list"),
        Err((2, 0))
    );
    let back = [long_as(64497), long_as(64496)].concat();
    let back = ask(&w, &back);
    assert_eq!(find_first(&back, "64497 then 64496"), Err((30, 8)));
    assert_eq!(find_next(&back, &[], "64497 then 64496"), Err((30, 8)));
}

// Lengths and capacities, and what a caller may count on besides.

/// Every length of a given list and every capacity around a path's, for
/// sequences of 1 to 16 domains.
#[test]
fn every_given_length_and_capacity() {
    let mut counts = Counts::default();
    for domains in 1..=16 {
        let (profile, include) = row(&vec![1; domains]);
        let (path, needed) = (row_path(domains), domains + 1);
        let mut request = ask(&profile, &include);
        for destination in [path[needed - 1], 7] {
            request.destination = destination;
            for capacity in [0, needed - 1, needed, needed + 1, 40] {
                let found = first_and_nexts(request, &path, capacity);
                found.into_iter().for_each(|found| counts.add(found));
            }
        }
    }
    counts.cover("first and next, lengths", &[0, 1, 2, 33, 34]);
}

/// 33 before 34, and both before the answer: the path, where the request's
/// destination is its end.
fn first_and_nexts(request: Request, path: &[u32], capacity: usize) -> Vec<(u32, u32)> {
    let needed = path.len();
    let reached = request.destination == path[needed - 1];
    let expected = |none: u32| match (capacity < needed, reached) {
        (true, _) => Err((34, 0)),
        (_, false) => Err((none, 0)),
        _ => Ok((path.to_vec(), needed as u32 - 1, 1)),
    };
    let find = |given: Option<&[u32]>| {
        let path = buffer(capacity);
        let which = format!("{:?} given, into {capacity}", given.map(<[u32]>::len));
        let case = PathCase {
            request,
            given,
            path,
        };
        (case.find(&which), which)
    };
    let (first, which) = find(None);
    assert_eq!(first, expected(1), "{which}");
    let mut all = vec![verdict(&first)];
    for length in (0..=needed + 1).chain([40, 1_000]) {
        let (next, which) = find(Some(&vec![0; length]));
        let expected = if length == needed {
            expected(2)
        } else {
            Err((33, 0))
        };
        assert_eq!(next, expected, "{which}");
        all.push(verdict(&next));
    }
    all
}

#[test]
fn inputs_may_lie_at_any_address() {
    let case = generate::largest_request(6);
    let expected = find_first(&case.request(), "aligned");
    for offset in 0..16 {
        let mut bytes = vec![0xFF; offset];
        bytes.extend([&case.profile[..], &case.include].concat());
        let (profile, include) = bytes[offset..].split_at(case.profile.len());
        let request = Request {
            profile,
            include,
            ..case.request()
        };
        assert_eq!(find_first(&request, offset), expected);
        assert_eq!(find_next(&request, &[0; 17], offset), expected);
    }
}

#[test]
fn only_the_four_numbers_are_stored() {
    for (list, expected) in [
        (&SHORT[..], [7, 0, 14, 0x4160_0000, 1, 7]),
        (&SHORT[..6], [7, 4, 0, 0, 0, 7]),
    ] {
        let w = profile_w();
        let (mut around, mut again, mut path) = ([7; 6], [7; 6], [0; 4]);
        let numbers = (&mut around[1..5]).try_into().expect("four numbers");
        tests::paths::first(&ask(&w, list), &mut path, numbers);
        let numbers = (&mut again[1..5]).try_into().expect("four numbers");
        tests::paths::next(&ask(&w, list), &[0; 4], &mut path, numbers);
        assert_eq!((around, again), (expected, expected));
    }
}

#[test]
fn stack_of_at_most_16_kib() {
    let used = |request: Request, given: &[u32]| {
        let (mut path, mut numbers) = ([0; LONGEST], [0; 4]);
        let first =
            stack::bytes_used(|| _ = tests::paths::first(&request, &mut path, &mut numbers));
        let next =
            stack::bytes_used(|| _ = tests::paths::next(&request, given, &mut path, &mut numbers));
        (first, next)
    };
    let (equal, largest) = (
        generate::equal_paths_request(),
        generate::largest_request(4),
    );
    let (mut path, mut numbers) = ([0; LONGEST], [0; 4]);
    reference::first(&equal.request(), &mut path, &mut numbers);
    let large = [used(equal.request(), &path), used(largest.request(), &path)];
    let generated = (0..1_000).map(|seed| {
        let case = generate::next_case(seed);
        used(case.request.request(), &case.given)
    });
    let all: Vec<(usize, usize)> = large.into_iter().chain(generated).collect();
    let first = all.iter().map(|&(first, _)| first).max().unwrap_or(0);
    let next = all.iter().map(|&(_, next)| next).max().unwrap_or(0);
    println!("\nfirst: {first} bytes of stack, next: {next}");
    assert!(first <= 16 * 1024 && next <= 16 * 1024);
}

/// Calls on different requests don't disturb each other: two listings taken in
/// turns are those taken alone.
#[test]
fn two_listings_in_turns() {
    const MOST: usize = 30;
    let mut paths = 0;
    for seed in seeds(1_000) {
        let random = &mut Random::new(seed, 110);
        let cases = [(); 2].map(|()| generate::small_request_case(random.step() >> 1));
        let requests = [cases[0].request(), cases[1].request()];
        let alone = requests.map(|request| listing(&request, MOST).0);
        for turn in 0..2 * MOST {
            let (request, listed, at) = (&requests[turn % 2], &alone[turn % 2], turn / 2);
            if at > listed.len() {
                continue;
            }
            let found = match at {
                0 => find_first(request, seed),
                _ => find_next(request, &listed[at - 1].0, seed),
            };
            assert_eq!(found.ok().as_ref(), listed.get(at), "{seed}");
            paths += usize::from(at < listed.len());
        }
    }
    println!("\nfirst and next, two listings in turns: {paths} paths");
}
