//! Wide costs: the library against the reference on generated requests, most of
//! whose totals are no floats; and against itself, with all costs raised by the
//! same amount.

use reference::generate::{self, NextCase, Random};
use reference::plain::Plain;
use reference::{PcReq, Request};
use tests::by_hand::desired::all_demanded;
use tests::compare::{compare, seeds, Kinds, Lent};
use tests::floats::{beside, is_float, keeps, nearest};
use tests::lists::verdict;
use tests::paths::{buffer, find_first, find_next, listing, Path, PathCase, LONGEST};
use tests::pcreq::{carry, AskPath};
use tests::series;
use tests::tree::{build, Tree, TreeCase};
use tests::wide::{change_costs, costs, MOST};

/// No more than this many paths of a listing are asked for.
const LISTED: usize = 10;

/// Above this many walks a case is too large to list every path.
const MOST_WALKS: u128 = 2_000;

/// The first paths of the listing, each the same from both programs, in ascending
/// order and of one total and round; the same as by listing every path, where
/// that is small.
#[track_caller]
fn listed(request: &Request, which: &str) -> Vec<Path> {
    let mut paths: Vec<Path> = Vec::new();
    let mut found = find_first(request, which);
    while let Ok(path) = found {
        if let Some(before) = paths.last() {
            assert!(before.0 < path.0, "{which}: in order");
            assert_eq!((before.1, before.2), (path.1, path.2), "{which}");
        }
        found = find_next(request, &path.0, which);
        paths.push(path);
        if paths.len() == LISTED {
            break;
        }
    }
    let plain = Plain::new(request).expect("it is accepted");
    if plain.walk_count() <= MOST_WALKS {
        let every = plain.listing();
        let total = every.total.unwrap_or(0);
        let every = every
            .paths
            .into_iter()
            .map(|path| (path, total, every.round));
        assert_eq!(paths, every.take(LISTED).collect::<Vec<_>>(), "{which}");
    }
    paths
}

/// First through a message that carries the request is first on the request.
#[track_caller]
fn through_a_message(request: &Request, which: &str) {
    let message = carry(request);
    let ask = AskPath {
        asked: PcReq {
            profile: request.profile,
            ingress: request.ingress,
            message: &message,
        },
        given: None,
        path: buffer(LONGEST),
    };
    let case = PathCase {
        request: *request,
        given: None,
        path: buffer(LONGEST),
    };
    assert_eq!(compare(&ask, which), compare(&case, which), "{which}");
}

/// Next and the tree into the case's own buffers, which may be too small.
#[track_caller]
fn into_own_buffers(case: &NextCase, which: &str) -> [(u32, u32); 2] {
    let (request, lent) = (case.request.request(), &case.request);
    let tree = TreeCase {
        request,
        buffers: (
            Lent::new(&lent.level),
            Lent::new(&lent.address),
            Lent::new(&lent.reachable),
            Lent::new(&lent.cost),
        ),
    };
    let next = PathCase {
        request,
        given: Some(&case.given),
        path: Lent::new(&case.path),
    };
    [verdict(&tree.build(which)), verdict(&next.find(which))]
}

/// Where a bound that counts lies beside a total that is no float, if it does.
fn bound_beside(request: &Request, total: u32) -> Option<&'static str> {
    let bound_bits = request.bound_bits;
    let near = request.bound_counts && !is_float(total) && beside(total).contains(&bound_bits);
    let is_nearest = bound_bits == nearest(total);
    let kind = match (keeps(total, bound_bits), is_nearest) {
        (false, true) => "below the total, at its float",
        (false, false) => "below the total, not at its float",
        (true, true) => "above the total, at its float",
        (true, false) => "above the total, not at its float",
    };
    near.then_some(kind)
}

#[test]
fn generated_requests() {
    let (mut requests, mut inexact, mut told, mut tied, mut between) = (0, 0, 0, 0, 0);
    let mut kinds = Kinds::default();
    for seed in seeds(24_000) {
        let case = generate::wide_case(seed);
        let request = case.request.request();
        let which = &format!("wide_case({seed})");
        let tree = build(&request, which).expect("it is accepted");
        let paths = listed(&request, which);
        if let Some((_, total, round)) = paths.first() {
            assert_eq!((Some(*total), *round), (tree.entries[0].2, tree.round));
        }
        for (answer, call) in into_own_buffers(&case, which).iter().zip(["tree", "next"]) {
            kinds.add(format!("{call} into its own buffers: {}", answer.0));
        }
        through_a_message(&request, which);
        let random = &mut Random::new(seed, 120);
        for outcome in series::any(random, request, which).0 {
            kinds.add(format!(
                "series {}, round {}",
                outcome.number, outcome.numbers[3]
            ));
        }
        // The round is decided by the first one's least total.
        let all = all_demanded(request.exclude);
        let first_round = Request {
            exclude: &all,
            ..request
        };
        let decisive = build(&first_round, which)
            .ok()
            .and_then(|tree| tree.entries[0].2);
        let beside = decisive.and_then(|total| bound_beside(&request, total));
        if let Some(beside) = beside {
            let found = if paths.is_empty() {
                "no path"
            } else {
                "a path"
            };
            kinds.add(format!("bound {beside}: round {}, {found}", tree.round));
        }
        requests += 1;
        let least_is_float = tree.entries[0].2.is_none_or(is_float);
        inexact += usize::from(!least_is_float);
        told += usize::from(!least_is_float && !paths.is_empty());
        tied += usize::from(paths.len() > 1);
        between += usize::from(beside.is_some());
    }
    let wanted = [
        "bound below the total, at its float: round 1, no path",
        "bound below the total, at its float: round 2, a path",
        "bound below the total, not at its float: round 1, no path",
        "bound below the total, not at its float: round 2, a path",
        "bound above the total, at its float: round 1, a path",
        "bound above the total, not at its float: round 1, a path",
        "series 0, round 1",
        "series 0, round 2",
        "tree into its own buffers: 0",
        "next into its own buffers: 0",
    ];
    kinds.cover("wide costs, generated", &wanted.map(String::from));
    println!("{requests} requests, {inexact} least totals no floats,");
    println!("{told} of them told with a path, {tied} ties,");
    println!("{between} bounds beside a total that is no float");
    assert!(requests >= 20_000);
    assert!(10 * told >= requests && tied >= 2_000 && between >= 2_000);
}

/// All costs raised by the same amount: a path has as many hops as any other, so
/// the listing and the tree are the same but for that.
#[test]
fn raised_costs() {
    let mut kinds = Kinds::default();
    for seed in seeds(6_000) {
        let mut case = generate::small_request_case(seed);
        case.bound_counts = false;
        let random = &mut Random::new(seed, 121);
        let mut raised = case.clone();
        let spare = MOST - costs(&case.profile).into_iter().max().unwrap_or(0);
        let more = match random.chance(1, 2) {
            true => spare,
            false => random.below(spare as usize + 1) as u32,
        };
        change_costs(&mut raised.profile, |_, cost| cost + more);
        let which = &format!("small_request_case({seed}) and {more}");
        let (before, after) = (case.request(), raised.request());
        let (tree, other) = (build(&before, which), build(&after, which));
        let (tree, other) = (tree.expect("it is accepted"), other.expect("so is it"));
        let hops = tests::paths::path_length(&before) as u32 - 1;
        assert_eq!(other, raised_tree(tree, hops, more), "{which}");
        let raise = |(path, total, round): Path| (path, total + hops * more, round);
        let (paths, end) = listing(&before, LISTED);
        let expected: Vec<Path> = paths.into_iter().map(raise).collect();
        let inexact = expected.first().is_some_and(|path| !is_float(path.1));
        kinds.add(match (expected.len(), inexact) {
            (0, _) => "no path",
            (1, false) => "one path, its total a float",
            (_, false) => "more paths, their total a float",
            (1, true) => "one path, its total no float",
            (_, true) => "more paths, their total no float",
        });
        let (found, found_end) = listing(&after, LISTED);
        assert_eq!((&found, found_end.0), (&expected, end.0), "{which}");
    }
    let wanted = [
        "no path",
        "one path, its total a float",
        "more paths, their total a float",
        "one path, its total no float",
        "more paths, their total no float",
    ];
    kinds.cover("wide costs, all raised", &wanted.map(String::from));
}

/// The tree with `more` added to each cost for each hop that is left.
fn raised_tree(mut tree: Tree, hops: u32, more: u32) -> Tree {
    for (level, _, least) in &mut tree.entries {
        *least = least.map(|cost| cost + (hops - *level) * more);
    }
    tree
}
