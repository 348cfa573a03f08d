//! The rules of the two rounds at their edges: X set and clear at each subobject
//! of a list, bounds around the totals of both rounds, and exclusions of ends
//! and domains, each with the answers that the rule gives.

use reference::Call::{First, Next};
use reference::Request;
use tests::by_hand::{ask, profile_w, P, Q, S, SHORT, T, U, Z};
use tests::floats::{keeps, nearest};
use tests::lists::{excluded, is_is, long_as, marked, ospf, short_as};
use tests::paths::{find_first, find_next, listing};
use tests::rows::{row, row_path, two_ways};
use tests::series::SeriesCase;
use tests::tree::build;

// Profile W, whose paths are typed by hand.

/// Its paths with their totals, ascending.
const PATHS: [([u32; 4], u32); 4] = [
    ([S, P, T, Z], 15),
    ([S, P, U, Z], 14),
    ([S, Q, T, Z], 14),
    ([S, Q, U, Z], 14),
];

/// A subobject, and the nodes that it takes away; all of them stand for a
/// domain of the sequence.
type Piece = (Vec<u8>, &'static [u32]);

const ALL: &[u32] = &[S, P, Q, T, U, Z];

fn pieces() -> Vec<Piece> {
    vec![
        (excluded(P, 32), &[P]),
        (excluded(Q, 32), &[Q]),
        (excluded(T, 32), &[T]),
        // 192.0.2.22/31: U and .23.
        (excluded(U + 1, 31), &[U]),
        (excluded(S, 32), &[S]),
        (excluded(Z, 32), &[Z]),
        // 192.0.2.8/29: P and Q.
        (excluded(P, 29), &[P, Q]),
        (short_as(64497), ALL),
        (long_as(64498), ALL),
        (ospf(0), &[]),
        (excluded(7, 32), &[]),
    ]
}

/// The paths that keep the exclusions and the bound, those of least total.
fn admissible(gone: &[u32], bound: Option<f32>) -> Vec<([u32; 4], u32)> {
    let kept = PATHS.into_iter().filter(|(path, total)| {
        let free = path.iter().all(|node| !gone.contains(node));
        free && bound.is_none_or(|bound| keeps(*total, bound.to_bits()))
    });
    let kept: Vec<_> = kept.collect();
    let least = kept.iter().map(|&(_, total)| total).min();
    let shortest = kept.into_iter().filter(|&(_, total)| Some(total) == least);
    shortest.collect()
}

/// All three calls on W are as the rule says. Gives the round, and whether it
/// has a path.
#[track_caller]
fn check(list: &[(&Piece, bool)], bound: Option<f32>) -> (u32, bool) {
    let gone = |of_round: u32| -> Vec<u32> {
        let kept = list.iter().filter(|(_, desired)| of_round == 1 || !desired);
        kept.flat_map(|(piece, _)| piece.1).copied().collect()
    };
    let any_desired = list.iter().any(|&(_, desired)| desired);
    let round = match admissible(&gone(1), bound).is_empty() && any_desired {
        true => 2,
        false => 1,
    };
    let paths = admissible(&gone(round), bound);
    let least = admissible(&gone(round), None).first().map(|path| path.1);

    let bytes = |&(piece, desired): &(&Piece, bool)| match desired {
        true => marked(piece.0.clone()),
        false => piece.0.clone(),
    };
    let exclude: Vec<u8> = list.iter().flat_map(bytes).collect();
    let w = profile_w();
    let request = Request {
        exclude: &exclude,
        bound_counts: bound.is_some(),
        bound_bits: bound.map_or(0, f32::to_bits),
        ..ask(&w, &SHORT)
    };
    let which = format!("bound {bound:?}, without {exclude:02X?}");
    let tree = build(&request, &which).expect("it is accepted");
    assert_eq!(
        (tree.hops_examined, tree.round),
        (8 * round, round),
        "{which}"
    );
    assert_eq!(tree.entries[0].2, least, "{which}");
    let found = |path: &([u32; 4], u32)| (path.0.to_vec(), path.1, round);
    let expected: Vec<_> = paths.iter().map(found).collect();
    let first = find_first(&request, &which);
    assert_eq!(first, expected.first().cloned().ok_or((1, 0)), "{which}");
    let next = find_next(&request, &[S, Q, 0, 0], &which);
    let after = expected.iter().find(|path| path.0[1] == Q).cloned();
    assert_eq!(next, after.ok_or((2, 0)), "{which}");
    let none = if expected.is_empty() { 1 } else { 2 };
    let listed = listing(&request, 10);
    assert_eq!(listed, (expected, (none, [0; 4])), "{which}");
    (round, !paths.is_empty())
}

fn just_below(value: f32) -> f32 {
    f32::from_bits(value.to_bits() - 1)
}

fn just_above(value: f32) -> f32 {
    f32::from_bits(value.to_bits() + 1)
}

/// Every list of up to three subobjects in every order, with X set and clear at
/// each, without a bound and with one at, just below and just above each total.
#[test]
fn every_x_bit_of_every_short_list() {
    let pieces = pieces();
    let around = |total| [just_below(total), total, just_above(total)].map(Some);
    let bounds = [&[None][..], &around(14.0), &around(15.0), &[Some(0.0)]].concat();
    let count = pieces.len();
    let mut cases = [[0; 2]; 3];
    for length in 0..=3 {
        for code in 0..count.pow(length) {
            let which = |i: u32| code / count.pow(i) % count;
            for x in 0..1 << length {
                let at = |i: u32| (&pieces[which(i)], x >> i & 1 == 1);
                let list: Vec<(&Piece, bool)> = (0..length).map(at).collect();
                for &bound in &bounds {
                    let (round, has_path) = check(&list, bound);
                    cases[round as usize][usize::from(has_path)] += 1;
                }
            }
        }
    }
    let [_, first, second] = cases;
    println!("\nrounds, every X bit of every short list, without and with a path:");
    println!("  round 1 {first:?}, round 2 {second:?}");
    assert!(first.iter().chain(&second).all(|&count| count > 1_000));
}

/// X set at each place of a list of 1,024 bytes, hitting and not.
#[test]
fn every_place_of_a_full_list() {
    let (nothing, p, q) = (excluded(7, 32), excluded(P, 32), excluded(Q, 32));
    let w = profile_w();
    let answer = |list: &[Vec<u8>]| {
        let exclude = list.concat();
        assert_eq!(exclude.len(), 1_024);
        let request = Request {
            exclude: &exclude,
            ..ask(&w, &SHORT)
        };
        let round = build(&request, "full").map(|tree| (tree.round, tree.hops_examined));
        let paths = listing(&request, 10).0.into_iter();
        (round, paths.map(|path| path.0).collect::<Vec<_>>())
    };
    let (spuz, sqtz, squz) = (PATHS[1].0, PATHS[2].0, PATHS[3].0);
    for at in 0..128 {
        let other = (at + 64) % 128;
        let mut list = vec![nothing.clone(); 128];
        list[at] = marked(nothing.clone());
        assert_eq!(answer(&list).0, Ok((1, 8)), "{at}");
        (list[at], list[other]) = (marked(p.clone()), q.clone());
        assert_eq!(answer(&list), (Ok((2, 16)), vec![spuz.to_vec()]), "{at}");
        (list[at], list[other]) = (marked(q.clone()), p.clone());
        let second = vec![sqtz.to_vec(), squz.to_vec()];
        assert_eq!(answer(&list), (Ok((2, 16)), second), "{at}");
        (list[at], list[other]) = (q.clone(), p.clone());
        assert_eq!(answer(&list), (Ok((1, 8)), vec![]), "{at}");
        list[(at + 1) % 128] = marked(nothing.clone());
        assert_eq!(answer(&list), (Ok((2, 16)), vec![]), "{at}");
    }
    for at in 0..256 {
        let mut list = vec![short_as(9); 256];
        list[at] = marked(short_as(64497));
        let all = [spuz, sqtz, squz].map(|path| path.to_vec());
        assert_eq!(answer(&list), (Ok((2, 16)), all.to_vec()), "{at}");
    }
}

// Bounds around the totals of both rounds.

/// The cheaper way is desired away, so that the dearer one is the first round's.
#[test]
fn bounds_around_the_totals_of_both_rounds() {
    let cheap = row_path(16);
    let mut dear = cheap.clone();
    dear[1] = S + 100;
    let exclude = marked(excluded(S + 1, 32));
    let powers = (0..28).flat_map(|power| [(1 << power) - 1, 1 << power]);
    let mut cases = [0; 3];
    for total in powers.chain([14, 1_000, 1_000_000, 268_435_140]) {
        for more in [1, 2, 300] {
            let (profile, include) = two_ways(total, more);
            let around = |total| {
                [
                    nearest(total).saturating_sub(1),
                    nearest(total),
                    nearest(total) + 1,
                ]
            };
            let bounds = [around(total), around(total + more)].concat();
            for bound_bits in bounds.into_iter().chain([0, 1, 0x7F7F_FFFF]) {
                let request = Request {
                    destination: cheap[16],
                    exclude: &exclude,
                    bound_counts: true,
                    bound_bits,
                    ..ask(&profile, &include)
                };
                let within = |total| keeps(total, bound_bits);
                let (round, path) = match (within(total + more), within(total)) {
                    (true, _) => (1, Some((&dear, total + more))),
                    (_, true) => (2, Some((&cheap, total))),
                    _ => (2, None),
                };
                let found = path.map(|(path, total)| (path.clone(), total, round));
                let which = format!("{total} and {more} more, bound {bound_bits:08X}");
                let first = find_first(&request, &which);
                assert_eq!(first, found.clone().ok_or((1, 0)), "{which}");
                let next = find_next(&request, &[0; 17], &which);
                assert_eq!(next, found.ok_or((2, 0)), "{which}");
                let tree = build(&request, &which).expect("it is accepted");
                assert_eq!((tree.hops_examined, tree.round), (18 * round, round));
                let least = if round == 1 { total + more } else { total };
                assert_eq!(tree.entries[0].2, Some(least), "{which}");
                cases[round as usize - 1 + usize::from(path.is_none())] += 1;
            }
        }
    }
    println!("\nrounds, bounds: {cases:?} in round 1, in round 2, without a path");
    assert!(cases.iter().all(|&count| count > 100));
}

// Ends and domains.

/// A row of 1 to 16 domains: each node of its path and each of its domains,
/// demanded and desired, alone and beside what the profile lacks.
#[test]
fn each_node_and_domain_of_a_row() {
    for domains in 1..=16 {
        let (profile, include) = row(&vec![1; domains]);
        let path = row_path(domains);
        let check = |exclude: Vec<u8>, round, has_path: bool| {
            let request = Request {
                destination: path[domains],
                exclude: &exclude,
                ..ask(&profile, &include)
            };
            let which = format!("{domains} domains without {exclude:02X?}");
            let found = (path.clone(), domains as u32, round);
            let expected = has_path.then_some(found).ok_or((1, 0));
            assert_eq!(find_first(&request, &which), expected, "{which}");
            let tree = build(&request, &which).expect("it is accepted");
            let tally = round * domains as u32;
            assert_eq!((tree.round, tree.hops_examined), (round, tally), "{which}");
            assert_eq!(tree.entries[0].2.is_some(), has_path, "{which}");
        };
        let nodes = path.iter().map(|&node| excluded(node, 32));
        let of_row = (0..domains as u32).map(|i| long_as(64496 + i));
        for piece in nodes.chain(of_row).chain([excluded(0, 0)]) {
            let (demanded, desired) = (piece.clone(), marked(piece));
            check(demanded.clone(), 1, false);
            check(desired.clone(), 2, true);
            check([demanded.clone(), desired.clone()].concat(), 2, false);
            for lacked in [ospf(1), is_is(&[0x49]), long_as(9), excluded(7, 32)] {
                check([demanded.clone(), lacked.clone()].concat(), 1, false);
                check([lacked.clone(), desired.clone()].concat(), 2, true);
                let lacked = marked(lacked);
                check([lacked.clone(), demanded.clone()].concat(), 2, false);
                check([desired.clone(), lacked.clone()].concat(), 2, true);
                check(lacked, 1, true);
            }
        }
    }
}

/// Document 01's book over the second round's listing, followed by hand.
#[test]
fn a_series_in_round_2() {
    let w = profile_w();
    let exclude = [excluded(P, 32), marked(excluded(Q, 32))].concat();
    let calls = [Next, First, Next, Next, Next, First];
    let buffers = [4, 4, 3, 5, 4, 4].map(|size| vec![9; size]);
    let case = SeriesCase {
        request: Request {
            exclude: &exclude,
            ..ask(&w, &SHORT)
        },
        calls: &calls,
        buffers: &buffers,
    };
    let (outcomes, left) = case.agreed("W in round 2");
    let (none, found) = ([0; 4], [0, 14, 0x4160_0000, 2]);
    let answers: Vec<_> = outcomes.iter().map(|o| (o.number, o.numbers)).collect();
    let expected = [
        (33, none),
        (0, found),
        (34, none),
        (0, found),
        (2, none),
        (0, found),
    ];
    assert_eq!(answers, expected);
    let mut expected = buffers.clone();
    expected[1] = vec![S, Q, T, Z];
    expected[3] = vec![S, Q, U, Z, 9];
    expected[5] = vec![S, Q, T, Z];
    assert_eq!(left, expected);
}
