//! What EXRS take away, each with the answer that the rule gives: on profile W
//! every pair of exclusions on its two stretches with X set and clear, bounds and
//! exclude lists; on rows of domains every node and domain on every stretch.

use reference::Request;
use tests::by_hand::{ask, profile_w, P, Q, S, T, U, Z};
use tests::compare::Kinds;
use tests::floats::keeps;
use tests::lists::{excluded, exrs, long_as, marked, ospf, short_as};
use tests::paths::{find_first, find_next, listing};
use tests::rows::{row, row_path};
use tests::tree::build;

// Profile W, whose paths are typed by hand.

/// Its paths with their totals, ascending.
const PATHS: [([u32; 4], u32); 4] = [
    ([S, P, T, Z], 15),
    ([S, P, U, Z], 14),
    ([S, Q, T, Z], 14),
    ([S, Q, U, Z], 14),
];

/// A subobject, and the entry nodes of either stretch that are out by it: all of
/// them where it takes the domain away.
struct Piece {
    bytes: Vec<u8>,
    out: [&'static [u32]; 2],
}

const FIRST: &[u32] = &[P, Q];
const SECOND: &[u32] = &[T, U];

fn pieces() -> Vec<Piece> {
    let piece = |bytes, first, second| Piece {
        bytes,
        out: [first, second],
    };
    vec![
        piece(excluded(P, 32), &[P], &[]),
        piece(excluded(Q, 32), &[Q], &[]),
        piece(excluded(T, 32), &[], &[T]),
        // 192.0.2.22/31: U and .23.
        piece(excluded(U + 1, 31), &[], &[U]),
        // 192.0.2.8/29: P and Q; 192.0.2.16/29: T and U.
        piece(excluded(P, 29), FIRST, &[]),
        piece(excluded(U, 29), &[], SECOND),
        piece(excluded(7, 0), FIRST, SECOND),
        // The ends, which no EXRS takes away.
        piece(excluded(S, 32), &[], &[]),
        piece(excluded(Z, 32), &[], &[]),
        piece(short_as(64496), &[], &[]),
        piece(short_as(64497), FIRST, &[]),
        piece(long_as(64498), &[], SECOND),
        piece(ospf(0), &[], &[]),
    ]
}

/// An exclusion of the request: where it stands, 0 or 1 for a stretch and 2 for
/// the exclude list, and whether X is set.
type Placed<'a> = (&'a Piece, usize, bool);

fn bytes_of(&(piece, _, desired): &Placed) -> Vec<u8> {
    match desired {
        true => marked(piece.bytes.clone()),
        false => piece.bytes.clone(),
    }
}

/// The paths that keep these exclusions and the bound.
fn admissible(all: &[Placed], round: u32, bound: Option<f32>) -> Vec<([u32; 4], u32)> {
    let in_force = |placed: &&Placed| round == 1 || !placed.2;
    let kept = PATHS.into_iter().filter(|(path, total)| {
        let free = all.iter().filter(in_force).all(|(piece, at, _)| {
            let out = |stretch: usize| piece.out[stretch].contains(&path[stretch + 1]);
            match at {
                0 | 1 => !out(*at),
                _ => !out(0) && !out(1),
            }
        });
        free && bound.is_none_or(|bound| keeps(*total, bound.to_bits()))
    });
    kept.collect()
}

/// All three calls on W are as the rule says. Gives the round, and whether it has
/// a path.
#[track_caller]
fn check(all: &[Placed], bound: Option<f32>, together: bool) -> (u32, bool) {
    let any_desired = all.iter().any(|placed| placed.2);
    let first_round = admissible(all, 1, bound);
    let round = if first_round.is_empty() && any_desired {
        2
    } else {
        1
    };
    let mut paths = admissible(all, round, bound);
    let least = paths.iter().map(|path| path.1).min();
    paths.retain(|path| Some(path.1) == least);
    let unbounded = admissible(all, round, None);
    let reached = unbounded.iter().map(|path| path.1).min();

    let stretch = |at: usize| -> Vec<u8> {
        let own = all.iter().filter(|placed| placed.1 == at);
        let own: Vec<Vec<u8>> = own.map(bytes_of).collect();
        match (own.is_empty(), together) {
            (true, _) => Vec::new(),
            (_, true) => exrs(&own),
            _ => own.into_iter().flat_map(|piece| exrs(&[piece])).collect(),
        }
    };
    let include = [stretch(0), short_as(64497), stretch(1), short_as(64498)].concat();
    let outside = all.iter().filter(|placed| placed.1 == 2);
    let exclude: Vec<u8> = outside.flat_map(bytes_of).collect();
    let w = profile_w();
    let request = Request {
        exclude: &exclude,
        bound_counts: bound.is_some(),
        bound_bits: bound.map_or(0, f32::to_bits),
        ..ask(&w, &include)
    };
    let which = &format!("{include:02X?} without {exclude:02X?}, bound {bound:?}");
    let listed = paths
        .iter()
        .map(|(path, total)| (path.to_vec(), *total, round));
    let (found, (end, _)) = listing(&request, 9);
    assert_eq!(found, listed.collect::<Vec<_>>(), "{which}");
    assert_eq!(end, if paths.is_empty() { 1 } else { 2 }, "{which}");
    let expected = paths.first().map(|path| (path.0.to_vec(), path.1, round));
    assert_eq!(find_first(&request, which), expected.clone().ok_or((1, 0)));
    let next = find_next(&request, &[0; 4], which);
    assert_eq!(next, expected.ok_or((2, 0)), "{which}");
    let tree = build(&request, which).expect("it is accepted");
    assert_eq!((tree.round, tree.hops_examined), (round, 8 * round));
    assert_eq!(tree.entries[0].2, reached, "{which}");
    (round, !paths.is_empty())
}

#[test]
fn every_pair_of_exclusions_on_profile_w() {
    let pieces = pieces();
    let mut kinds = Kinds::default();
    let placed = || {
        let places = [0, 1].iter().flat_map(|&at| [(at, false), (at, true)]);
        let places: Vec<(usize, bool)> = places.collect();
        let each = pieces.iter().flat_map(move |piece| {
            let places = places.clone().into_iter();
            places.map(move |(at, desired)| (piece, at, desired))
        });
        each.collect::<Vec<Placed>>()
    };
    for one in placed() {
        for other in placed() {
            for bound in [None, Some(14.0), Some(13.5)] {
                let together = one.1 == other.1 && one.2;
                let (round, found) = check(&[one, other], bound, together);
                kinds.add(format!("round {round}, path {found}"));
            }
        }
    }
    let wanted = [(1, true), (1, false), (2, true), (2, false)];
    let wanted = wanted.map(|(round, found)| format!("round {round}, path {found}"));
    kinds.cover("EXRS on profile W, pairs", &wanted);
}

/// One exclusion on a stretch beside one of the exclude list; there is none of an
/// end here, which an exclude list would take away.
#[test]
fn exrs_and_the_exclude_list_on_profile_w() {
    let mut pieces = pieces();
    pieces.truncate(7);
    pieces.extend([short_as(9), ospf(0)].map(|bytes| Piece {
        bytes,
        out: [&[], &[]],
    }));
    // In an exclude list prefix length 0 takes the ends away too.
    let outside = |piece: &&Piece| piece.bytes != excluded(7, 0);
    let mut kinds = Kinds::default();
    for one in &pieces {
        for other in pieces.iter().filter(outside) {
            for code in 0..8 {
                let (at, x, y) = (code & 1, code & 2 > 0, code & 4 > 0);
                for bound in [None, Some(14.0)] {
                    let (round, found) = check(&[(one, at, x), (other, 2, y)], bound, true);
                    kinds.add(format!("X {x} and {y}: round {round}, path {found}"));
                }
            }
        }
    }
    let wanted = [
        "X false and false: round 1, path true",
        "X false and false: round 1, path false",
        "X true and false: round 1, path true",
        "X true and false: round 2, path true",
        "X true and false: round 2, path false",
        "X false and true: round 1, path true",
        "X false and true: round 2, path true",
        "X false and true: round 2, path false",
        "X true and true: round 1, path true",
        "X true and true: round 2, path true",
    ];
    kinds.cover("EXRS beside an exclude list", &wanted.map(String::from));
}

// Rows of domains.

/// The list that crosses the row, with an EXRS before the domain `at`.
fn with_exrs(include: &[u8], at: usize, inside: Vec<u8>) -> Vec<u8> {
    // Each domain's name has four bytes.
    let (before, after) = include.split_at(4 * (at - 1));
    [before, &exrs(&[inside]), after].concat()
}

/// Each node of the path and each domain on each stretch: it acts on its own
/// stretch alone.
#[test]
fn each_node_and_domain_on_each_stretch_of_a_row() {
    let mut cases = [0; 3];
    for domains in 2..=16 {
        let (profile, include) = row(&vec![1; domains]);
        let path = row_path(domains);
        let nodes = path.iter().map(|&node| excluded(node, 32));
        let of_row = (0..domains as u32).map(|i| long_as(64496 + i));
        let all: Vec<(usize, Vec<u8>)> = nodes.enumerate().chain(of_row.enumerate()).collect();
        for at in 1..domains {
            for (own, piece) in &all {
                let hits = *own == at;
                for desired in [false, true] {
                    let inside = match desired {
                        true => marked(piece.clone()),
                        false => piece.clone(),
                    };
                    let include = with_exrs(&include, at, inside);
                    let request = Request {
                        destination: path[domains],
                        ..ask(&profile, &include)
                    };
                    let which = format!("{domains} domains, {piece:02X?} on stretch {at}");
                    let (round, has_path) = match (hits, desired) {
                        (false, _) => (1, true),
                        (true, false) => (1, false),
                        (true, true) => (2, true),
                    };
                    let found = (path.clone(), domains as u32, round);
                    let expected = has_path.then_some(found).ok_or((1, 0));
                    assert_eq!(find_first(&request, &which), expected, "{which}");
                    let tree = build(&request, &which).expect("it is accepted");
                    let tally = round * domains as u32;
                    assert_eq!((tree.round, tree.hops_examined), (round, tally), "{which}");
                    // In round 1 the entries from this stretch back are cut off.
                    for (level, _, least) in tree.entries {
                        let cut = !has_path && level as usize <= at;
                        assert_eq!(least.is_none(), cut, "{which}: level {level}");
                    }
                    cases[round as usize - usize::from(!has_path)] += 1;
                }
            }
        }
    }
    println!("\nEXRS on rows: {cases:?} without a path, in round 1, in round 2");
    assert!(cases.iter().all(|&count| count >= 200));
}
