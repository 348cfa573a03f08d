//! Requests with EXRS: tree, first, next and series of the library against the
//! reference on requests whose EXRS, exclude list and bound decide between the
//! rounds; each round against the request that it stands for; and EXRS moved to
//! where they don't act.

use reference::generate::{self, Random};
use reference::Request;
use tests::by_hand::desired::{in_round, inside_exrs, some_desired, subobjects, Decided, Outcomes};
use tests::compare::{seeds, Kinds};
use tests::exrs::{all_hit_kinds, hit_kinds, outcome, OUTCOMES};
use tests::lists::{exrs, is_is, marked, short_as, verdict};
use tests::paths::{find_first, find_next, listing, path_length, Found};
use tests::series;
use tests::tree::{build, Tree};

/// Tree, first and next with capacity to spare.
#[track_caller]
fn answers(request: &Request, given: &[u32], which: &str) -> (Tree, Found, Found) {
    (
        build(request, which).expect("it is accepted"),
        find_first(request, which),
        find_next(request, given, which),
    )
}

/// How often each outcome must come up.
const OFTEN: usize = 1_000;

/// Tree, first and next on each, a series on one in five. How the round comes
/// about is asked of the library itself, by requests that have one round.
#[test]
fn generated_requests() {
    let mut outcomes = Outcomes::default();
    let mut by_exrs = Counted::default();
    let mut told = Kinds::default();
    let mut hits = Kinds::default();
    for seed in seeds(32_000) {
        let case = generate::exrs_round_case(seed);
        let request = case.request.request();
        let which = &format!("exrs_round_case({seed})");
        assert!(!inside_exrs(request.include).is_empty(), "{which}");
        let (tree, first, next) = answers(&request, &case.given, which);
        let decided = Decided::of(&request, |r| find_first(r, which).is_ok());
        let round = decided.round();
        assert_eq!(tree.round, round, "{which}");
        for found in [&first, &next] {
            let named = found.as_ref().map_or(round, |path| path.2);
            assert_eq!(named, round, "{which}");
        }
        told.add(format!("first {} in round {round}", verdict(&first).0));
        told.add(format!("next {} in round {round}", verdict(&next).0));
        if seed % 5 == 0 {
            let random = &mut Random::new(seed, 121);
            let (calls, _) = series::any(random, request, which);
            for call in calls {
                let named = if call.number == 0 { round } else { 0 };
                assert_eq!(call.numbers[3], named, "{which}");
                told.add(format!("series {} in round {round}", call.number));
            }
        }
        outcomes.add(decided);
        by_exrs.add(outcome(&request, decided));
        hit_kinds(&request, &tree, &mut hits);
    }
    outcomes.cover("EXRS, rounds", OFTEN, 300);
    by_exrs.cover("EXRS, rounds", OFTEN);
    hits.cover("EXRS, what they hit", &all_hit_kinds());
    let kinds = [
        "first 0",
        "first 1",
        "next 0",
        "next 2",
        "next 33",
        "series 0",
        "series 1",
        "series 2",
        "series 33",
        "series 34",
    ];
    let wanted = [1, 2].map(|round| kinds.map(|kind| format!("{kind} in round {round}")));
    told.cover("EXRS, answers", &wanted.concat());
}

/// How often each outcome came up.
#[derive(Default)]
struct Counted([usize; OUTCOMES.len()]);

impl Counted {
    fn add(&mut self, outcome: &str) {
        let at = OUTCOMES.iter().position(|&known| known == outcome);
        self.0[at.expect("one of them")] += 1;
    }

    #[track_caller]
    fn cover(&self, run: &str, often: usize) {
        for (count, outcome) in self.0.iter().zip(OUTCOMES) {
            println!("{count:>8}  {outcome}");
            assert!(*count >= often, "{run}: {outcome}");
        }
    }
}

/// Round 1 answers as if all were demanded; round 2 as if only the demanded
/// ones were there, but for the round's number and twice the tally.
#[test]
fn each_round_is_a_request_of_its_own() {
    let mut rounds = [0; 3];
    for seed in seeds(8_000) {
        let case = generate::exrs_round_case(seed);
        let request = case.request.request();
        let which = &format!("exrs_round_case({seed})");
        let (tree, first, next) = answers(&request, &case.given, which);
        let round = tree.round;
        let (include, exclude) = in_round(&request, round);
        let alone = Request {
            include: &include,
            exclude: &exclude,
            ..request
        };
        assert!(!some_desired(&alone), "{which}");
        let expected = answers(&alone, &case.given, which);
        let renamed = |found: Found| found.map(|(path, total, _)| (path, total, round));
        let twice = Tree {
            hops_examined: round * expected.0.hops_examined,
            round,
            ..expected.0
        };
        assert_eq!(tree, twice, "{which}");
        assert_eq!(first, renamed(expected.1), "{which}");
        assert_eq!(next, renamed(expected.2), "{which}");
        rounds[round as usize] += 1;
    }
    println!("\nEXRS, each round a request of its own: {rounds:?}");
    assert!(rounds[1] > 1_000 && rounds[2] > 1_000);
}

/// All paths by first and next keep the node exclusions of their EXRS in the round
/// that they are found in, worked out from the bytes of the list.
#[test]
fn listings_keep_to_the_exrs() {
    const MOST: usize = 200;
    let mut kinds = Kinds::default();
    for seed in seeds(8_000) {
        let case = generate::exrs_round_case(seed);
        let request = case.request.request();
        let (paths, (end, _)) = listing(&request, MOST);
        let round = paths.first().map_or(0, |path| path.2);
        let nodes = excluded_entries(&request, round);
        for (path, ..) in &paths {
            let kept = nodes.iter().all(|(at, out)| !out(path[*at]));
            assert!(kept, "exrs_round_case({seed}): {path:08X?}");
        }
        assert!(paths.len() == MOST || end <= 2, "exrs_round_case({seed})");
        let some = if nodes.is_empty() { "no" } else { "some" };
        kinds.add(match paths.len() {
            0 => "no path".to_string(),
            1 => format!("one path, {some} node excluded"),
            _ => format!("more paths, {some} node excluded"),
        });
    }
    let wanted = [
        "no path",
        "one path, no node excluded",
        "one path, some node excluded",
        "more paths, no node excluded",
        "more paths, some node excluded",
    ];
    kinds.cover("EXRS, listings", &wanted.map(String::from));
}

/// Whether an entry node is out.
type Out = Box<dyn Fn(u32) -> bool>;

/// The node exclusions that count in a round: the place in a path that they
/// speak of, and which nodes are out there.
fn excluded_entries(request: &Request, round: u32) -> Vec<(usize, Out)> {
    let question = reference::Question::accept(request).expect("it is accepted");
    let mut nodes: Vec<(usize, Out)> = Vec::new();
    for (at, stop) in question.stops.iter().enumerate() {
        for whole in &stop.exrs {
            for piece in subobjects(&whole[4..]) {
                let in_force = round == 1 || piece[0] < 0x80;
                if piece[0] & 0x7F == 1 && in_force {
                    let base = u32::from_be_bytes(piece[2..6].try_into().expect("four bytes"));
                    let length = u32::from(piece[6]);
                    let out = move |node: u32| (node ^ base).leading_zeros() >= length;
                    nodes.push((at, Box::new(out)));
                }
            }
        }
    }
    nodes
}

/// An EXRS of what the profile lacks, before any subobject after which a domain
/// follows: with X clear it changes nothing; with X set nothing but the round and
/// the tally of a tree without a path, where nothing else had X set.
#[test]
fn exrs_of_what_the_profile_lacks() {
    let mut kinds = Kinds::default();
    for seed in seeds(6_000) {
        let case = generate::exrs_round_case(seed);
        let request = case.request.request();
        let which = &format!("exrs_round_case({seed})");
        let before = answers(&request, &case.given, which);
        let live = request.profile[5] == 1;
        let number = if live { 64_496 } else { 65_000 };
        let random = &mut Random::new(seed, 122);
        let piece = match random.chance(1, 2) {
            true => short_as(number),
            false => is_is(&[0x77; 5]),
        };
        for desired in [false, true] {
            let inside = match desired {
                true => marked(piece.clone()),
                false => piece.clone(),
            };
            // Right before the first of the list, all of it before a domain.
            let include = [exrs(&[inside]), request.include.to_vec()].concat();
            if include.len() > 1_024 {
                continue;
            }
            let more = Request {
                include: &include,
                ..request
            };
            let after = answers(&more, &case.given, which);
            assert_eq!((&after.1, &after.2), (&before.1, &before.2), "{which}");
            let opens = desired && !some_desired(&request) && before.1.is_err();
            let mut expected = before.0.clone();
            if opens {
                expected.hops_examined *= 2;
                expected.round = 2;
            }
            assert_eq!(after.0, expected, "{which}");
            kinds.add(format!("X {desired}, opens {opens}"));
        }
    }
    let wanted = [
        "X false, opens false",
        "X true, opens false",
        "X true, opens true",
    ];
    kinds.cover("EXRS of what the profile lacks", &wanted.map(String::from));
}

/// The same exclusions in EXRS and in the exclude list: an EXRS takes away no more
/// than the exclude list does, and often less.
#[test]
fn an_exrs_takes_away_no_more_than_an_exclude_list() {
    let (mut less, mut same) = (0, 0);
    for seed in seeds(6_000) {
        let case = generate::exrs_round_case(seed);
        let request = case.request.request();
        let which = &format!("exrs_round_case({seed})");
        let (include, exclude) = in_round(&request, 1);
        let by_exrs = Request {
            include: &include,
            exclude: &exclude,
            bound_counts: false,
            ..request
        };
        let all = [&exclude[..], &inside_exrs(&include)].concat();
        let mut pieces = subobjects(&include);
        pieces.retain(|piece| piece[0] != 33);
        let by_list = Request {
            include: &pieces.concat(),
            exclude: &all,
            ..by_exrs
        };
        assert_eq!(path_length(&by_exrs), path_length(&by_list), "{which}");
        match (find_first(&by_exrs, which), find_first(&by_list, which)) {
            (Ok(found), Ok(fewer)) => {
                assert!(found.1 <= fewer.1, "{which}");
                same += usize::from(found.1 == fewer.1);
                less += usize::from(found.1 < fewer.1);
            }
            (Ok(_), Err(_)) => less += 1,
            (Err(_), other) => assert_eq!(verdict(&other), (1, 0), "{which}"),
        }
    }
    println!("\nEXRS beside an exclude list: {less} with less taken away, {same} alike");
    assert!(less > 500 && same > 200);
}
