//! The listing through first and next: run to its end, and gone on with from any
//! list. What must come is found by listing every path, or known from how the
//! profile was made.

use reference::generate::{self, Random, EQUAL_PATHS_WIDTHS};
use reference::plain::{Listed, Plain};
use reference::{Question, Request, ShortestPaths};
use tests::compare::{seeds, Kinds};
use tests::paths::{find_first, find_next, listing};

// Small profiles, of which every path is listed.

/// Above this many walks a case is too large to list.
const MOST_WALKS: u128 = 20_000;

/// The paths of a request in order, their total and round, by listing
/// everything.
fn plain_listing(request: &Request) -> Option<Listed> {
    let plain = Plain::new(request).ok()?;
    (plain.walk_count() <= MOST_WALKS).then(|| plain.listing())
}

fn count_kind(count: usize) -> &'static str {
    match count {
        0 => "no path",
        1 => "one path",
        2..=9 => "up to 9 paths",
        10..=99 => "up to 99 paths",
        _ => "100 paths or more",
    }
}

#[test]
fn listings_run_to_the_end() {
    let mut kinds = Kinds::default();
    let (mut cases, mut paths) = (0, 0);
    for seed in seeds(9_000) {
        let case = generate::small_request_case(seed);
        let Some(plain) = plain_listing(&case.request()) else {
            continue;
        };
        let expected = plain.paths;
        let (found, end) = listing(&case.request(), expected.len());
        let none = if expected.is_empty() { 1 } else { 2 };
        assert_eq!(end, (none, [0; 4]), "small_request_case({seed})");
        assert_eq!(found.len(), expected.len(), "small_request_case({seed})");
        for ((path, cost, round), listed) in found.iter().zip(&expected) {
            let same = path == listed && (Some(*cost), *round) == (plain.total, plain.round);
            assert!(
                same,
                "small_request_case({seed}): {path:08X?} for {listed:08X?}"
            );
        }
        kinds.add(count_kind(expected.len()));
        cases += 1;
        paths += expected.len();
    }
    println!("\nfirst and next, listings: {cases} requests, {paths} paths");
    let counts = [0, 1, 9, 99, 100].map(|count| count_kind(count).to_string());
    kinds.cover("first and next, listings", &counts);
}

/// Lists to go on from: paths that are listed, as they are and with one address
/// changed, with one more or less, and lists that are no path at all.
fn given_lists(random: &mut Random, request: &Request, listed: &[Vec<u32>]) -> Vec<Vec<u32>> {
    let (source, length) = (request.source, tests::paths::path_length(request));
    let mut lists = vec![vec![0; length], vec![u32::MAX; length]];
    for first in [source.wrapping_sub(1), source, source.wrapping_add(1)] {
        for rest in [0, u32::MAX, request.destination] {
            let mut list = vec![rest; length];
            list[0] = first;
            lists.push(list);
        }
    }
    for _ in 0..listed.len().min(6) {
        let path = &listed[random.below(listed.len())];
        lists.push(path.clone());
        for at in 0..length {
            for step in [1, -1] {
                let mut near = path.clone();
                near[at] = near[at].wrapping_add_signed(step);
                lists.push(near);
            }
        }
        let other = &listed[random.below(listed.len())];
        let cut = random.below(length);
        lists.push([&path[..cut], &other[cut..]].concat());
        lists.push(path[..length - 1].to_vec());
        lists.push([&path[..], &[request.destination]].concat());
    }
    lists
}

#[test]
fn next_after_any_list() {
    let mut kinds = Kinds::default();
    for seed in seeds(3_000) {
        let case = generate::small_request_case(seed);
        let request = case.request();
        let Some(plain) = plain_listing(&request) else {
            continue;
        };
        let listed = plain.paths;
        let length = tests::paths::path_length(&request);
        for given in given_lists(&mut Random::new(seed, 111), &request, &listed) {
            let which = format!("small_request_case({seed}) after {given:08X?}");
            let found = find_next(&request, &given, &which);
            let greater = listed.iter().find(|path| **path > given);
            let expected = match (given.len() == length, greater, plain.total) {
                (false, ..) => Err((33, 0)),
                (_, Some(path), Some(total)) => Ok((path.clone(), total, plain.round)),
                _ => Err((2, 0)),
            };
            assert_eq!(found, expected, "{which}");
            let is_listed = if listed.contains(&given) {
                "a listed path"
            } else {
                "another list"
            };
            kinds.add(match expected {
                Ok(_) => format!("a path after {is_listed}"),
                Err((33, _)) => "of another length".to_string(),
                Err(_) => format!("nothing after {is_listed}"),
            });
        }
    }
    let wanted = [
        "a path after a listed path",
        "a path after another list",
        "nothing after a listed path",
        "nothing after another list",
        "of another length",
    ];
    kinds.cover("next after any list", &wanted.map(String::from));
}

// The most equal paths: some 2^58.

#[test]
fn a_thousand_of_the_most_equal_paths() {
    let case = generate::equal_paths_request();
    let request = case.request();
    let paths = ShortestPaths::new(Question::accept(&request).expect("it is accepted"));
    let (found, _) = listing(&request, 1_001);
    assert_eq!(found.len(), 1_001);
    for (position, found) in (0..).zip(found) {
        let path = paths.at(position).expect("there are more");
        assert_eq!(found, (path, 16, 1), "{position}");
    }
}

/// The path at a position, spelled by its digits: every node of a domain leads
/// to every node of the next.
fn spelled(mut position: u64) -> Vec<u32> {
    let mut path = vec![0xC000_02FE];
    for (i, &width) in EQUAL_PATHS_WIDTHS.iter().enumerate().rev() {
        let digit = position % width as u64;
        position /= width as u64;
        path.push(0xC633_6400 + 16 * (i as u32 + 1) + digit as u32);
    }
    path.push(0xC000_0201);
    path.reverse();
    path
}

#[test]
fn far_inside_the_most_equal_paths() {
    let case = generate::equal_paths_request();
    let request = case.request();
    let count: u64 = EQUAL_PATHS_WIDTHS
        .iter()
        .map(|&width| width as u64)
        .product();
    assert!(count > 1 << 58);
    let random = &mut Random::new(1, 112);
    let next = |given: &[u32]| find_next(&request, given, format_args!("{given:08X?}"));
    let at = |position| Ok((spelled(position), 16, 1));
    assert_eq!(find_first(&request, "first"), at(0));
    for _ in 0..300 {
        let position = random.step() % (count - 1);
        let here = spelled(position);
        assert_eq!(next(&here), at(position + 1));
        // Just below it, and with all after one address as great as can be.
        let place = random.between(1, 15);
        let mut below = here.clone();
        below[16] -= 1;
        assert_eq!(next(&below), at(position));
        let mut above = here;
        above[place + 1..].fill(u32::MAX);
        let step: u64 = EQUAL_PATHS_WIDTHS[place..]
            .iter()
            .map(|&width| width as u64)
            .product();
        let following = (position / step + 1) * step;
        let expected = if following == count {
            Err((2, 0))
        } else {
            at(following)
        };
        assert_eq!(next(&above), expected);
    }
    assert_eq!(next(&spelled(count - 2)), at(count - 1));
    assert_eq!(next(&spelled(count - 1)), Err((2, 0)));
}
