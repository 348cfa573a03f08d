//! The two rounds: the library against the reference on requests whose
//! exclusions and bound decide between them; each round against the request
//! that it stands for; and what excluding something that isn't there changes.

use reference::generate::{self, NextCase, Random};
use reference::Request;
use tests::by_hand::desired::{any_desired, demanded_alone, in_round, Decided, Outcomes};
use tests::compare::{compare, seeds, Answer, Kinds, Lent};
use tests::lists::{excluded, is_is, long_as, marked, ospf, short_as, verdict};
use tests::paths::{find_first, find_next, Found, PathCase};
use tests::tree::{self, build, Tree, TreeCase, MOST_ENTRIES};
use tests::{series, stack};

/// Tree, first and next with capacity to spare.
#[track_caller]
fn answers(request: &Request, given: &[u32], which: &str) -> (Tree, Found, Found) {
    (
        build(request, which).expect("it is accepted"),
        find_first(request, which),
        find_next(request, given, which),
    )
}

/// What a case's own buffers hold afterwards, and the numbers.
type Left = (
    Answer<4, tree::Buffers>,
    Answer<4, Lent<u32>>,
    Answer<4, Lent<u32>>,
);

/// Tree, first and next into the case's own buffers.
#[track_caller]
fn left(case: &NextCase, request: Request, which: &str) -> Left {
    let lent = &case.request;
    let tree = TreeCase {
        request,
        buffers: (
            Lent::new(&lent.level),
            Lent::new(&lent.address),
            Lent::new(&lent.reachable),
            Lent::new(&lent.cost),
        ),
    };
    let path = |given, path: &[u32]| PathCase {
        request,
        given,
        path: Lent::new(path),
    };
    (
        compare(&tree, which),
        compare(&path(None, &lent.path), which),
        compare(&path(Some(&case.given), &case.path), which),
    )
}

/// Tree, first and next on each, a series on one in four. How the round comes
/// about is asked of the library itself, by requests that have one round.
#[test]
fn generated_requests() {
    let mut outcomes = Outcomes::default();
    let mut told = Kinds::default();
    for seed in seeds(24_000) {
        let case = generate::round_case(seed);
        let request = case.request.request();
        let which = &format!("round_case({seed})");
        let (tree, first, next) = answers(&request, &case.given, which);
        let decided = Decided::of(&request, |r| find_first(r, which).is_ok());
        let round = decided.round();
        assert_eq!(tree.round, round, "{which}");
        for found in [&first, &next] {
            let named = found.as_ref().map_or(round, |path| path.2);
            assert_eq!(named, round, "{which}");
        }
        told.add(format!("first {} in round {round}", verdict(&first).0));
        told.add(format!("next {} in round {round}", verdict(&next).0));
        left(&case, request, which);
        if seed % 4 == 0 {
            let random = &mut Random::new(seed, 115);
            let (calls, _) = series::any(random, request, which);
            for call in calls {
                let named = if call.number == 0 { round } else { 0 };
                assert_eq!(call.numbers[3], named, "{which}");
                told.add(format!("series {} in round {round}", call.number));
            }
        }
        outcomes.add(decided);
    }
    outcomes.cover("rounds, generated", 1_000, 300);
    let wanted = [1, 2].map(|round| {
        let kinds = [
            "first 0",
            "first 1",
            "next 0",
            "next 2",
            "next 33",
            "series 0",
            "series 1",
            "series 2",
            "series 33",
            "series 34",
        ];
        kinds.map(|kind| format!("{kind} in round {round}"))
    });
    told.cover("rounds, answers", &wanted.concat());
}

/// Round 1 answers as if all were demanded; round 2 as if only the demanded
/// ones were there, but for the round's number and twice the tally.
#[test]
fn each_round_is_a_request_of_its_own() {
    let mut rounds = [0; 3];
    for seed in seeds(8_000) {
        let case = generate::round_case(seed);
        let request = case.request.request();
        let which = &format!("round_case({seed})");
        let (tree, first, next) = answers(&request, &case.given, which);
        let round = tree.round;
        let (include, exclude) = in_round(&request, round);
        let alone = Request {
            include: &include,
            exclude: &exclude,
            ..request
        };
        let expected = answers(&alone, &case.given, which);
        let renamed = |found: Found| found.map(|(path, total, _)| (path, total, round));
        let twice = Tree {
            hops_examined: round * expected.0.hops_examined,
            round,
            ..expected.0
        };
        assert_eq!(tree, twice, "{which}");
        assert_eq!(first, renamed(expected.1), "{which}");
        assert_eq!(next, renamed(expected.2), "{which}");
        rounds[round as usize] += 1;
    }
    println!("\nrounds, each a request of its own: {rounds:?}");
    assert!(rounds[1] > 1_000 && rounds[2] > 1_000);
}

// Excluding what the profile lacks.

/// An AS, a node and a block of the kind that the profile's class rules out,
/// and areas that no generated domain has.
fn lacked(profile: &[u8]) -> [Vec<u8>; 6] {
    let live = profile.get(5) == Some(&1);
    let (as_number, node, block) = match live {
        true => (64_496, 0xC000_0201, excluded(0xC633_6400, 24)),
        false => (65_000, 0x0A00_0001, excluded(0x0B00_0000, 8)),
    };
    [
        short_as(as_number),
        long_as(as_number.into()),
        excluded(node, 32),
        block,
        ospf(0x7777_7777),
        is_is(&[0x77; 5]),
    ]
}

/// X clear changes nothing at all; X set nothing but the tree's round and
/// tally, where the first round has no path and nothing was desired before.
#[test]
fn excluding_what_the_profile_lacks() {
    let mut kinds = Kinds::default();
    for seed in seeds(6_000) {
        let random = &mut Random::new(seed, 116);
        let (case, name) = match random.chance(1, 2) {
            true => (generate::round_case(seed), "round_case"),
            false => (generate::next_case(seed), "next_case"),
        };
        let request = case.request.request();
        let which = &format!("{name}({seed})");
        let before = left(&case, request, which);
        let number = before.0.number;
        // The list's own refusals stand before what is added.
        if (22..=26).contains(&number) || request.exclude.len() > 1_000 {
            continue;
        }
        let piece = lacked(request.profile)[random.below(6)].clone();
        let series = random.step();
        let ran = series::any(&mut Random::new(series, 117), request, which);
        for desired in [false, true] {
            let added = match desired {
                true => marked(piece.clone()),
                false => piece.clone(),
            };
            let exclude = match random.chance(1, 2) {
                true => [request.exclude, &added].concat(),
                // A refusal of another list stays where it is.
                false => [&added, request.exclude].concat(),
            };
            let more = Request {
                exclude: &exclude,
                ..request
            };
            let after = left(&case, more, which);
            assert_eq!(after.1, before.1, "{which}: first");
            assert_eq!(after.2, before.2, "{which}: next");
            let series = series::any(&mut Random::new(series, 117), more, which);
            assert_eq!(series, ran, "{which}: series");
            let mut expected = before.0.clone();
            let opens = desired && number == 0 && opens_a_second(&request, which);
            if opens {
                expected.numbers[2] *= 2;
                expected.numbers[3] = 2;
            }
            assert_eq!(after.0, expected, "{which}: tree");
            kinds.add(format!(
                "X {desired}, tree {}, opens {opens}",
                number.min(10)
            ));
        }
    }
    let wanted = [
        "X false, tree 0, opens false",
        "X true, tree 0, opens false",
        "X true, tree 0, opens true",
        "X false, tree 10, opens false",
        "X true, tree 10, opens false",
    ];
    kinds.cover("rounds, what the profile lacks", &wanted.map(String::from));
}

/// Whether a request's first round has no path, and none is desired away.
fn opens_a_second(request: &Request, which: &str) -> bool {
    !any_desired(request.exclude) && find_first(request, which).is_err()
}

// The largest profile.

/// The largest profile whose second domain's 16 entry nodes are desired away,
/// among as many others that the profile lacks: 8, or 1,024 bytes in all.
fn largest_in_two_rounds(bytes: usize) -> (NextCase, Vec<u8>) {
    let mut request = generate::largest_request(4);
    let lacked = (0..bytes as u32 / 8 - 1).flat_map(|i| excluded(0xCB00_7100 + i, 32));
    request.exclude = lacked.chain(marked(excluded(0xC633_6410, 28))).collect();
    let case = NextCase {
        request,
        given: vec![0; 17],
        path: vec![0; 17],
    };
    let alone = demanded_alone(&case.request.exclude);
    (case, alone)
}

#[test]
fn the_largest_profile_in_two_rounds() {
    for bytes in [8, 1_024] {
        let (case, alone) = largest_in_two_rounds(bytes);
        assert_eq!(case.request.exclude.len(), bytes);
        let which = &format!("{bytes} bytes excluded");
        let request = case.request.request();
        let (tree, first, next) = answers(&request, &case.given, which);
        assert_eq!(tree.entries.len(), MOST_ENTRIES);
        assert_eq!((tree.hops_examined, tree.round), (6_000, 2));
        let found = first.expect("it has a path");
        assert_eq!(Some(found.1), tree.entries[0].2);
        assert_eq!((found.2, next.as_ref()), (2, Ok(&found)));
        let one = Request {
            exclude: &alone,
            ..request
        };
        assert_eq!(build(&one, which).map(|tree| tree.round), Ok(1));
    }
}

/// Some 2^58 paths that all cost 16, one more than the bound.
#[test]
fn many_paths_above_the_bound() {
    let mut case = generate::equal_paths_request();
    (case.bound_counts, case.bound_bits) = (true, 15.0f32.to_bits());
    for (exclude, round) in [(vec![], 1), (marked(short_as(9)), 2)] {
        case.exclude = exclude;
        let (tree, first, next) = answers(&case.request(), &[0; 17], "bound 15");
        assert_eq!((tree.hops_examined, tree.round), (3_000 * round, round));
        assert_eq!((first, next), (Err((1, 0)), Err((2, 0))));
    }
}

#[test]
fn stack_of_at_most_16_kib_in_two_rounds() {
    let mut most = [0; 4];
    for bytes in [8, 1_024] {
        let (mut case, _) = largest_in_two_rounds(bytes);
        let lent = case.request.clone();
        let request = lent.request();
        let out = &mut case.request;
        let mut numbers = [0; 4];
        let mut ran = [0; 10];
        let used = [
            stack::bytes_used(|| {
                let (level, address) = (&mut out.level, &mut out.address);
                let (reachable, cost) = (&mut out.reachable, &mut out.cost);
                tree::tree(&request, level, address, reachable, cost, &mut numbers);
            }),
            stack::bytes_used(|| {
                tests::paths::first(&request, &mut out.path, &mut numbers);
            }),
            stack::bytes_used(|| {
                tests::paths::next(&request, &case.given, &mut out.path, &mut numbers);
            }),
            stack::bytes_used(|| {
                let sizes = [out.path.len() as u32, 0];
                tests::series::series(&request, &[0, 1], &sizes, &mut out.path, &mut ran);
            }),
        ];
        assert_eq!((numbers[3], ran[4]), (2, 2));
        most = std::array::from_fn(|i| most[i].max(used[i]));
    }
    println!("\ntwo rounds: {most:?} bytes of stack for tree, first, next, series");
    assert!(most.iter().all(|&bytes| bytes <= 16 * 1024));
}
