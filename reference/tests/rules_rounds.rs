//! The rules of the two rounds (document 02's request [1]), on profile W and on
//! small profiles.

use crate::common;
use common::*;
use reference::series::{reference_series, series, Call};
use reference::Request;

const SPTZ: [u32; 4] = [S, P, T, Z];
const SPUZ: [u32; 4] = [S, P, U, Z];
const SQTZ: [u32; 4] = [S, Q, T, Z];
const SQUZ: [u32; 4] = [S, Q, U, Z];

/// W's tree while nothing is excluded.
const WHOLE: [Entry; 5] = [
    (0, S, 1, 14),
    (1, P, 1, 4),
    (1, Q, 1, 11),
    (2, T, 1, 2),
    (2, U, 1, 3),
];

fn node(address: u32, x: u8) -> Vec<u8> {
    let mut piece = vec![x | 1, 8];
    piece.extend(address.to_be_bytes());
    piece.extend([32, 1]);
    piece
}

fn short_as(as_number: u16, x: u8) -> Vec<u8> {
    [&[x | 32, 4], &as_number.to_be_bytes()[..]].concat()
}

/// The X bit.
const CLEAR: u8 = 0;
const SET: u8 = 0x80;

/// What W is asked for in all cases but the exclude list.
#[derive(Clone, Copy)]
struct Asked {
    bound: Option<f32>,
    bandwidth_bits: u32,
    destination: u32,
}

const AS_EVER: Asked = Asked {
    bound: None,
    bandwidth_bits: B100,
    destination: Z,
};

fn with<T>(asked: Asked, exclude: &[Vec<u8>], answer: impl Fn(&Request) -> T) -> T {
    let (w, exclude) = (profile_w(), exclude.concat());
    answer(&Request {
        exclude: &exclude,
        destination: asked.destination,
        bandwidth_bits: asked.bandwidth_bits,
        bound_counts: asked.bound.is_some(),
        bound_bits: asked.bound.map_or(0, f32::to_bits),
        ..ask(&w, &SHORT)
    })
}

/// Both the paths, of one total, and the tree's costs in order (none where an
/// entry is unreachable) are those of this round.
#[track_caller]
fn expect(
    asked: Asked,
    exclude: &[Vec<u8>],
    round: u32,
    (paths, total): (&[[u32; 4]], u32),
    costs: [Option<u32>; 5],
) {
    let listed: Vec<_> = paths.iter().map(|p| (p.to_vec(), total, round)).collect();
    assert_eq!(with(asked, exclude, |r| listing(r, 4)), listed);
    let mut entries = WHOLE.to_vec();
    for (entry, cost) in entries.iter_mut().zip(costs) {
        entry.2 = u8::from(cost.is_some());
        entry.3 = cost.unwrap_or(0);
    }
    assert_eq!(with(asked, exclude, tree), (entries, 8 * round, round));
    if paths.is_empty() {
        let none = (1, [0; 4], vec![OLD; 4]);
        assert_eq!(with(asked, exclude, |r| first(r, 4)), none);
        let none = (2, [0; 4], vec![OLD; 4]);
        assert_eq!(with(asked, exclude, |r| next(r, &[0; 4], 4)), none);
    }
}

const ALL: ([[u32; 4]; 3], u32) = ([SPUZ, SQTZ, SQUZ], 14);
const COSTS: [Option<u32>; 5] = [Some(14), Some(4), Some(11), Some(2), Some(3)];
const NONE: (&[[u32; 4]], u32) = (&[], 0);

#[test]
fn round_1_while_it_has_a_path() {
    let without_q = [Some(14), Some(4), None, Some(2), Some(3)];
    for x in [CLEAR, SET] {
        let q = [node(Q, x)];
        expect(AS_EVER, &q, 1, (&[SPUZ], 14), without_q);
    }
    let lacked = [node(7, SET), short_as(9, SET)];
    expect(AS_EVER, &lacked, 1, (&ALL.0, ALL.1), COSTS);
    // A dearer path is a path.
    let without_q_and_u = [Some(15), Some(5), None, Some(2), None];
    let q_and_u = [node(Q, SET), node(U, SET)];
    expect(AS_EVER, &q_and_u, 1, (&[SPTZ], 15), without_q_and_u);
}

#[test]
fn round_2_drops_all_that_is_desired() {
    let p_and_q = [node(P, SET), node(Q, SET)];
    expect(AS_EVER, &p_and_q, 2, (&ALL.0, ALL.1), COSTS);
    // Also what it could have kept: without U there would be SQTZ.
    let with_u = [node(P, SET), node(Q, SET), node(U, SET)];
    expect(AS_EVER, &with_u, 2, (&ALL.0, ALL.1), COSTS);
}

#[test]
fn round_2_keeps_what_is_demanded() {
    let without_p = [Some(14), None, Some(11), Some(2), Some(3)];
    let p = [node(P, CLEAR), node(Q, SET)];
    expect(AS_EVER, &p, 2, (&[SQTZ, SQUZ], 14), without_p);
    let without_q = [Some(14), Some(4), None, Some(2), Some(3)];
    let q = [node(P, SET), node(Q, CLEAR)];
    expect(AS_EVER, &q, 2, (&[SPUZ], 14), without_q);
    // Demanded and desired at a time.
    let twice = [node(P, SET), node(P, CLEAR), node(Q, SET)];
    expect(AS_EVER, &twice, 2, (&[SQTZ, SQUZ], 14), without_p);
}

#[test]
fn without_anything_desired_there_is_no_round_2() {
    let demanded = [node(P, CLEAR), node(Q, CLEAR)];
    let costs = [None, None, None, Some(2), Some(3)];
    expect(AS_EVER, &demanded, 1, NONE, costs);
    expect(
        Asked {
            destination: 7,
            ..AS_EVER
        },
        &[],
        1,
        NONE,
        [None; 5],
    );
}

#[test]
fn round_2_without_a_path() {
    let costs = [None, None, None, Some(2), Some(3)];
    let demanded = [node(P, CLEAR), node(Q, CLEAR), node(U, SET)];
    expect(AS_EVER, &demanded, 2, NONE, costs);
    // What is desired needn't hit anything to open it.
    for lacked in [
        node(7, SET),
        short_as(9, SET),
        vec![0x86, 8, 0, 0, 0, 0, 0, 0],
    ] {
        let elsewhere = Asked {
            destination: 7,
            ..AS_EVER
        };
        expect(elsewhere, &[lacked.clone()], 2, NONE, [None; 5]);
        let demanded = [node(P, CLEAR), lacked, node(Q, CLEAR)];
        expect(AS_EVER, &demanded, 2, NONE, costs);
    }
}

#[test]
fn the_bound_decides_the_round_of_all_three_calls() {
    let bounded = |bound| Asked {
        bound: Some(bound),
        ..AS_EVER
    };
    let just = |bits: u32| bounded(f32::from_bits(bits));
    // Round 1 has SPTZ alone, 15 (41700000).
    let desired = [node(Q, SET), node(U, SET)];
    let dearer = [Some(15), Some(5), None, Some(2), None];
    for bound in [bounded(15.0), just(0x4170_0001), bounded(1e30)] {
        expect(bound, &desired, 1, (&[SPTZ], 15), dearer);
    }
    for bound in [just(0x416F_FFFF), bounded(14.5), bounded(14.0)] {
        expect(bound, &desired, 2, (&ALL.0, ALL.1), COSTS);
    }
    // Round 2 keeps a demanded Q, so it has SPUZ, 14 (41600000).
    let mixed = [node(Q, CLEAR), node(U, SET)];
    let cheaper = [Some(14), Some(4), None, Some(2), Some(3)];
    expect(bounded(15.0), &mixed, 1, (&[SPTZ], 15), dearer);
    expect(bounded(14.0), &mixed, 2, (&[SPUZ], 14), cheaper);
    expect(just(0x415F_FFFF), &mixed, 2, NONE, cheaper);
    // Nothing keeps 13, and the tree has no bound.
    for bound in [bounded(13.0), bounded(0.0)] {
        expect(bound, &desired, 2, NONE, COSTS);
        expect(bound, &[node(7, SET)], 2, NONE, COSTS);
        expect(bound, &[node(7, CLEAR)], 1, NONE, COSTS);
        expect(bound, &[], 1, NONE, COSTS);
    }
}

#[test]
fn a_bound_that_does_not_count_decides_nothing() {
    let (w, exclude) = (profile_w(), [node(Q, SET), node(U, SET)].concat());
    let mut request = ask(&w, &SHORT);
    request.exclude = &exclude;
    for bound_bits in [0, 13.0f32.to_bits(), 0x7F80_0000, u32::MAX] {
        request.bound_bits = bound_bits;
        assert_eq!(listing(&request, 4), [(SPTZ.to_vec(), 15, 1)]);
    }
}

#[test]
fn ends_and_domains_may_be_desired() {
    let every = vec![0x81, 8, 0, 0, 0, 0, 0, 1];
    let desired = [
        node(S, SET),
        node(Z, SET),
        every,
        short_as(64496, SET),
        short_as(64497, SET),
        short_as(64498, SET),
        vec![0x85, 8, 9, 9, 0, 0, 0xFB, 0xF1],
    ];
    for piece in desired {
        expect(AS_EVER, &[piece.clone()], 2, (&ALL.0, ALL.1), COSTS);
        // Round 2 still keeps a demanded P.
        let without_p = [Some(14), None, Some(11), Some(2), Some(3)];
        let list = [piece, node(P, CLEAR)];
        expect(AS_EVER, &list, 2, (&[SQTZ, SQUZ], 14), without_p);
    }
}

#[test]
fn bandwidth_is_kept_in_both_rounds() {
    let wide = Asked {
        bandwidth_bits: B100 + 1,
        ..AS_EVER
    };
    // Without P and T only SQUZ is left, and QU is too narrow.
    let desired = [node(P, SET), node(T, SET)];
    expect(wide, &desired, 2, (&[SPUZ, SQTZ], 14), COSTS);
    let without_p = [Some(11 + 3), None, Some(11), None, Some(3)];
    expect(AS_EVER, &desired, 1, (&[SQUZ], 14), without_p);
}

#[test]
fn entry_constraints_are_kept_in_both_rounds() {
    let w = profile_w();
    let constrained = |last: u8| {
        let mut include = vec![0x20, 4, 0xFB, 0xF1, 1, 8, 0xC0, 0, 2, last, 32, 0];
        include.extend([0x20, 4, 0xFB, 0xF2]);
        include
    };
    let exclude = node(U, SET);
    let listed = |include: &[u8]| {
        let mut request = ask(&w, include);
        request.exclude = &exclude;
        listing(&request, 4)
    };
    let second = [SPUZ, SQUZ].map(|path| (path.to_vec(), 14, 2));
    assert_eq!(listed(&constrained(22)), second, "U, which is desired away");
    let first = [(SQTZ.to_vec(), 14, 1)];
    assert_eq!(listed(&constrained(21)), first, "T");
}

#[test]
fn an_area_desired_in_every_as() {
    let area = [0, 0, 0, 7];
    let domains = [domain(64496, 1, &area), domain(64497, 2, &area)];
    let hops = [hop(0, 0, S, Z, 1, B100), hop(1, 1, S, Z, 1, B100)];
    let profile = file(0, &domains, &hops);
    for (ingress, round) in [(0, 2), (1, 1)] {
        let mut request = ask(&profile, &[]);
        request.ingress = ingress;
        request.exclude = &[0x86, 8, 3, 3, 0, 0, 0, 7];
        assert_eq!(listing(&request, 2), [(vec![S, Z], 1, round)]);
        assert_eq!(tree(&request), (vec![(0, S, 1, 1)], round, round));
    }
}

/// Twice no hop at all is none.
#[test]
fn a_tally_of_0_in_both_rounds() {
    let (w, exclude) = (profile_w(), node(7, SET));
    let mut request = ask(&w, &[]);
    request.exclude = &exclude;
    assert_eq!(tree(&request), (vec![(0, S, 0, 0)], 0, 2));
    assert_eq!(first(&request, 2), (1, [0; 4], vec![OLD; 2]));
}

/// 33 and 34 go before any search, and no refusal names a round.
#[test]
fn refusals_stay() {
    let w = profile_w();
    let desired = [node(P, SET), node(Q, SET)].concat();
    let mut request = ask(&w, &SHORT);
    request.exclude = &desired;
    assert_eq!(first(&request, 3), (34, [0; 4], vec![OLD; 3]));
    assert_eq!(next(&request, &[S; 3], 4), (33, [0; 4], vec![OLD; 4]));
    assert_eq!(next(&request, &[S; 4], 3), (34, [0; 4], vec![OLD; 3]));
    assert_eq!(next(&request, &SQUZ, 4), (2, [0; 4], vec![OLD; 4]));
    let cut = [&desired[..], &[0x81, 8, 0]].concat();
    request.exclude = &cut;
    assert_eq!(first(&request, 4), (23, [16, 0, 0, 0], vec![OLD; 4]));
    let wrong = [&desired[..], &[0x81, 8, 0, 0, 0, 0, 33, 1]].concat();
    request.exclude = &wrong;
    assert_eq!(first(&request, 4), (26, [16, 0, 0, 0], vec![OLD; 4]));
    let long = [0xA0, 4, 0, 9].repeat(257);
    request.exclude = &long;
    assert_eq!(first(&request, 4), (22, [1, 0, 0, 0], vec![OLD; 4]));
    request.exclude = &long[..1024];
    assert_eq!(first(&request, 4).1, [0, 14, 0x4160_0000, 1]);
}

/// Each answer 0 of a series names the round.
#[test]
fn a_series_in_round_2() {
    use Call::{First, Next};
    let w = profile_w();
    let exclude = [node(P, CLEAR), node(Q, SET)].concat();
    let mut request = ask(&w, &SHORT);
    request.exclude = &exclude;
    let calls = [Next, First, Next, Next, First];
    let mut buffers = vec![vec![9; 4]; 5];
    let mut book = buffers.clone();
    let outcomes = series(&request, &calls, &mut buffers);
    let found = [0, 14, 0x4160_0000, 2];
    let expected = [
        (33, [0; 4]),
        (0, found),
        (0, found),
        (2, [0; 4]),
        (0, found),
    ];
    let answers: Vec<_> = outcomes.iter().map(|o| (o.number, o.numbers)).collect();
    assert_eq!(answers, expected);
    assert_eq!(reference_series(&request, &calls, &mut book), outcomes);
    assert_eq!(buffers, book);
    assert_eq!(buffers[1..3], [SQTZ, SQUZ]);
}
