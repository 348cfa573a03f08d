//! first and next: the library beside the reference, which searches the same
//! way but keeps what it finds in maps and counts it.

use crate::race::race;
use crate::two_rounds::{two_rounds, with_exrs, EXRS_NAMES, NAMES};
use reference::{generate, Question, Request, ShortestPaths};
use tests::by_hand::{ask, profile_w, SHORT};
use tests::paths::{first, next, LONGEST};

/// The largest profile with a sequence of 16, in one round and in two, with EXRS
/// that fill the include list too, and with wide costs and a bound; the one with the most equal paths, where next goes on
/// from a late path; and profile W.
pub fn first_and_next() {
    let largest = generate::largest_request(0);
    let listed = shortest(&largest.request());
    let after = listed.first().expect("it has a path");
    race_first("first, 16 domains", &largest.request());
    race_next("next, 16 domains", &largest.request(), &after);
    for (name, case) in NAMES.iter().zip(two_rounds()) {
        race_first(&format!("first, 16 domains, {name}"), &case.request());
    }
    for (name, case) in EXRS_NAMES.iter().zip(with_exrs()) {
        race_first(&format!("first, 16 domains, {name}"), &case.request());
    }

    let wide = generate::largest_wide_request(0);
    race_first("first, 16 domains, wide costs, a bound", &wide.request());

    let equal = generate::equal_paths_request();
    let listed = shortest(&equal.request());
    let late = listed.at(listed.count() - 2).expect("it has more paths");
    race_first("first, 2^58 paths", &equal.request());
    race_next(
        "next, after a late one of 2^58 paths",
        &equal.request(),
        &late,
    );

    let w = profile_w();
    let request = ask(&w, &SHORT);
    let after = shortest(&request).first().expect("it has a path");
    race_first("first, profile W", &request);
    race_next("next, profile W", &request, &after);
}

fn shortest(request: &Request) -> ShortestPaths {
    ShortestPaths::new(Question::accept(request).expect("it is accepted"))
}

fn race_first(name: &str, request: &Request) {
    let by = |call: fn(&Request, &mut [u32], &mut [u32; 4]) -> u32| {
        move || {
            let (mut path, mut numbers) = ([0; LONGEST], [0; 4]);
            let number = call(request, &mut path, &mut numbers);
            assert_eq!(number, 0);
            (numbers, path)
        }
    };
    race(name, by(first), by(reference::first));
}

/// Next after a path; it may be the last.
fn race_next(name: &str, request: &Request, given: &[u32]) {
    let by = |call: fn(&Request, &[u32], &mut [u32], &mut [u32; 4]) -> u32| {
        move || {
            let (mut path, mut numbers) = ([0; LONGEST], [0; 4]);
            let number = call(request, given, &mut path, &mut numbers);
            (number, numbers, path)
        }
    };
    race(name, by(next), by(reference::next));
}
