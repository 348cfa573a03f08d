//! The calls on requests with EXRS, refused ones among them: tree, first and
//! next, through a PCReq's IRO too, and series; the largest profile with as many
//! EXRS as a list holds; and stack.

use reference::generate::{self, NextCase};
use reference::PcReq;
use tests::by_hand::messages::*;
use tests::by_hand::{S, Z};
use tests::compare::{compare, seeds, Counts, Kinds, Lent};
use tests::exrs::{outcome, OUTCOMES};
use tests::lists::verdict;
use tests::paths::{self, find_first, PathCase};
use tests::pcreq::{self, ask, carry, listing, read, AskPath};
use tests::series::SeriesCase;
use tests::tree::{self, build, TreeCase, MOST_ENTRIES};
use tests::{by_hand::desired::Decided, stack};

/// Document 01's numbers for a request, EXRS too, with others around them.
fn numbers(before: &[u32], after: &[u32]) -> Vec<u32> {
    let checks: Vec<u32> = (10..=32).collect();
    [before, &checks, after].concat()
}

#[test]
fn any_request() {
    let mut counts: [Counts; 3] = Default::default();
    for seed in seeds(24_000) {
        let case = generate::exrs_next_case(seed);
        let which = format!("exrs_next_case({seed})");
        let lent = &case.request;
        let request = lent.request();
        let tree = TreeCase {
            request,
            buffers: (
                Lent::new(&lent.level),
                Lent::new(&lent.address),
                Lent::new(&lent.reachable),
                Lent::new(&lent.cost),
            ),
        };
        let path = |given, path: &[u32]| {
            let path = Lent::new(path);
            let case = PathCase {
                request,
                given,
                path,
            };
            verdict(&case.find(&which))
        };
        counts[0].add(verdict(&tree.build(&which)));
        counts[1].add(path(None, &lent.path));
        counts[2].add(path(Some(&case.given), &case.path));
    }
    counts[0].cover("EXRS, tree", &numbers(&[0], &[34, 42]));
    counts[1].cover("EXRS, first", &numbers(&[0, 1], &[34, 42]));
    counts[2].cover("EXRS, next", &numbers(&[0, 2], &[33, 34, 42]));
    for counts in counts {
        for number in (23..=30).chain([32, 42]) {
            assert!(counts.places(number) >= 15, "{number}");
        }
    }
}

/// Messages of any kind whose IRO has EXRS.
#[test]
fn through_a_pcreq() {
    let mut counts: [Counts; 3] = Default::default();
    for seed in seeds(10_000) {
        let case = generate::exrs_pcreq_case(seed);
        let which = format!("exrs_pcreq_case({seed})");
        let carries = matches!(case.expected, Some(Ok(_)));
        let told = ask(&case.next, &case.message, carries, &which);
        if let Some(Err(expected)) = case.expected {
            assert_eq!(told, [expected; 3], "{which}");
        }
        for (counts, told) in counts.iter_mut().zip(told) {
            counts.add(told);
        }
        _ = read(&case.message, &which);
    }
    for (counts, own) in counts.iter().zip([0, 1, 2]) {
        for number in [own, 22, 24, 25, 26, 27, 28, 32, 34, 36, 37, 38, 42] {
            let cases = counts.cases(number);
            assert!(cases >= 10, "{number}: {cases}");
        }
        println!("EXRS through a PCReq: {} times 42", counts.cases(42));
    }
}

/// Requests whose EXRS decide between the rounds, carried by messages of any
/// shape; their listings are those of the request.
#[test]
fn rounds_through_a_pcreq() {
    let mut kinds = Kinds::default();
    for seed in seeds(6_000) {
        let mut next = generate::exrs_round_case(seed);
        let (message, carried) = generate::carrying(seed, &next.request);
        next.request = carried;
        let which = format!("exrs_round_case({seed})");
        ask(&next, &message, true, &which);
        let request = next.request.request();
        let decided = Decided::of(&request, |r| find_first(r, &which).is_ok());
        kinds.add(outcome(&request, decided));
        let asked = PcReq {
            profile: request.profile,
            ingress: request.ingress,
            message: &message,
        };
        let through = listing(&asked, paths::path_length(&request), 50);
        assert_eq!(through, paths::listing(&request, 50), "{which}");
    }
    let wanted = OUTCOMES.map(String::from);
    kinds.cover("EXRS through a PCReq, rounds", &wanted);
}

/// Include lists with a known meaning or one known fault, as an IRO.
#[test]
fn planned_lists_in_an_iro() {
    let mut counts = Counts::default();
    let mut cut = 0;
    for seed in seeds(12_000) {
        let planned = generate::planned_exrs_include(seed);
        if !planned.include.len().is_multiple_of(4) {
            // Only a message of whole words can carry it.
            cut += 1;
            continue;
        }
        let which = format!("planned_exrs_include({seed})");
        let objects = [iro(&planned.include), rp(1, 0), end_points(S, Z)];
        let message = message(PCREQ, &objects);
        let path = AskPath {
            asked: PcReq {
                profile: &planned.profile,
                ingress: planned.ingress,
                message: &message,
            },
            given: None,
            path: paths::buffer(paths::LONGEST),
        };
        let answer = compare(&path, &which);
        match &planned.expected {
            Err(told) => assert_eq!(answer.verdict(), *told, "{which}"),
            Ok(_) => assert!(answer.number <= 1, "{which}"),
        }
        let form = match planned.expected {
            Err((number @ 22..=27, place)) => (number, place),
            _ => (0, 0),
        };
        assert_eq!(verdict(&read(&message, &which)), form, "{which}");
        counts.add(answer.verdict());
    }
    println!("\nEXRS in an IRO: {cut} not of whole words left out");
    let numbers: Vec<u32> = [1].into_iter().chain(22..=32).chain([42]).collect();
    counts.cover("EXRS in an IRO, planned", &numbers);
}

#[test]
fn series_of_calls() {
    let mut kinds = Kinds::default();
    for seed in seeds(8_000) {
        let case = generate::exrs_series_case(seed);
        let series = SeriesCase {
            request: case.request.request(),
            calls: &case.calls,
            buffers: &case.buffers,
        };
        let (outcomes, _) = series.agreed(format_args!("exrs_series_case({seed})"));
        for (call, outcome) in case.calls.iter().zip(&outcomes) {
            kinds.add(match outcome.number {
                0 => format!("{call:?} 0 in round {}", outcome.numbers[3]),
                number => format!("{call:?} {number}"),
            });
        }
    }
    let wanted = [
        "First 0 in round 1",
        "First 0 in round 2",
        "First 1",
        "First 34",
        "First 42",
        "Next 0 in round 1",
        "Next 0 in round 2",
        "Next 2",
        "Next 33",
        "Next 34",
        "Next 42",
    ];
    kinds.cover("EXRS, series", &wanted.map(String::from));
}

// The largest profile.

fn largest(rounds: u32) -> NextCase {
    NextCase {
        request: generate::largest_exrs_request(4, rounds),
        given: vec![0; 17],
        path: vec![0; 17],
    }
}

#[test]
fn the_largest_profile_with_15_exrs() {
    for rounds in [1, 2] {
        let case = largest(rounds);
        let request = case.request.request();
        let which = &format!("{rounds} rounds");
        assert_eq!(request.include.len(), 1_024);
        let tree = build(&request, which).expect("it is accepted");
        assert_eq!(tree.entries.len(), MOST_ENTRIES);
        assert_eq!((tree.hops_examined, tree.round), (3_000 * rounds, rounds));
        let found = find_first(&request, which).expect("it has a path");
        assert_eq!((Some(found.1), found.2), (tree.entries[0].2, rounds));
        // Its EXRS hit nothing in the end.
        let bare = generate::largest_request(4);
        let free = find_first(&bare.request(), which).expect("it has a path");
        assert_eq!((found.0, found.1), (free.0, free.1));
        ask(&case, &carry(&request), true, which);
    }
}

#[test]
fn stack_of_at_most_16_kib() {
    let mut most = [0; 7];
    for rounds in [1, 2] {
        let mut case = largest(rounds);
        let lent = case.request.clone();
        let request = lent.request();
        let message = carry(&request);
        let asked = PcReq {
            profile: request.profile,
            ingress: request.ingress,
            message: &message,
        };
        let (given, out) = (&case.given, &mut case.request);
        let mut numbers = [0; 4];
        let mut ran = [0; 10];
        let (level, address) = (&mut out.level, &mut out.address);
        let (reachable, cost) = (&mut out.reachable, &mut out.cost);
        let used = [
            stack::bytes_used(|| {
                tree::tree(&request, level, address, reachable, cost, &mut numbers);
            }),
            stack::bytes_used(|| {
                pcreq::pcreq_tree(&asked, level, address, reachable, cost, &mut numbers);
            }),
            stack::bytes_used(|| {
                paths::first(&request, &mut out.path, &mut numbers);
            }),
            stack::bytes_used(|| {
                pcreq::pcreq_first(&asked, &mut out.path, &mut numbers);
            }),
            stack::bytes_used(|| {
                paths::next(&request, given, &mut out.path, &mut numbers);
            }),
            stack::bytes_used(|| {
                pcreq::pcreq_next(&asked, given, &mut out.path, &mut numbers);
            }),
            stack::bytes_used(|| {
                let sizes = [17, 0];
                tests::series::series(&request, &[0, 1], &sizes, &mut out.path, &mut ran);
            }),
        ];
        assert_eq!((numbers[3], ran[4]), (rounds, rounds));
        most = std::array::from_fn(|i| most[i].max(used[i]));
    }
    println!("\nEXRS: {most:?} bytes of stack for tree, first and next, each through a PCReq too, and series");
    assert!(most.iter().all(|&bytes| bytes <= 16 * 1024));
}
