//! The wrapper on document 01's worked examples, each call and each kind of
//! answer, on desired exclusions and on wide costs.

mod common;

use common::*;
use std::net::Ipv4Addr;
use yachayniq::{check_profile, Call, Entry, Path, Profile, Request, Stop, Tree};

const THROUGH_U: &[u8] = &[
    32, 4, 0xFB, 0xF1, 1, 8, 192, 0, 2, 22, 32, 0, 32, 4, 0xFB, 0xF2,
];
const BACK: &[u8] = &[5, 8, 0, 0, 0, 0, 0xFB, 0xF1, 5, 8, 0, 0, 0, 0, 0xFB, 0xF0];
const DESIRED: u8 = 0x80; // X set

/// The tree of a request by both other domains: what S, P, Q, T and U cost, 0
/// where Z can't be reached.
#[track_caller]
fn costed_in(round: u32, request: Request, costs: [u32; 5]) {
    let entry = |((level, address), cost)| Entry {
        level,
        address,
        reachable: cost != 0,
        cost,
    };
    let nodes = [(0, S), (1, P), (1, Q), (2, T), (2, U)];
    let expected = Tree {
        entries: nodes.into_iter().zip(costs).map(entry).collect(),
        tally: 8 * round,
        round,
    };
    assert_eq!(w().tree(&request), Ok(expected));
}

#[test]
fn tree() {
    costed_in(1, request(), [14, 4, 11, 2, 3]);

    let alone = Request {
        include: &[],
        ..request()
    };
    let tree = w().tree(&alone).unwrap();
    let source = Entry {
        level: 0,
        address: S,
        reachable: false,
        cost: 0,
    };
    assert_eq!((tree.entries, tree.tally, tree.round), (vec![source], 0, 1));
    assert_eq!(w().first(&alone), Ok(None));
}

/// The shortest paths of a request, each of total 14 and of this round.
#[track_caller]
fn listed_in(round: u32, request: Request, expected: &[[Ipv4Addr; 4]]) {
    let path = |addresses: &[Ipv4Addr; 4]| Path {
        addresses: addresses.to_vec(),
        total: 14,
        total_float: 14.0,
        round,
    };
    let expected: Vec<_> = expected.iter().map(path).collect();
    let w = w();
    let paths: Vec<_> = w.paths(&request).unwrap().collect();
    assert_eq!(paths, expected);
}

#[track_caller]
fn listed(request: Request, expected: &[[Ipv4Addr; 4]]) {
    listed_in(1, request, expected);
}

#[test]
fn paths() {
    let request = request();
    let bounded = |bound| Request {
        bound: Some(bound),
        ..request
    };
    listed(request, &EVERY);
    listed(bounded(14.0), &EVERY);
    listed(bounded(13.0), &[]);
    let bandwidth = f32::from_bits(0x42C80001);
    listed(
        Request {
            bandwidth,
            ..request
        },
        &EVERY[..2],
    );
    let exclude = &without(0, Q);
    listed(Request { exclude, ..request }, &EVERY[..1]);
    let include = THROUGH_U;
    listed(Request { include, ..request }, &[EVERY[0], EVERY[2]]);
}

/// W with 16,777,203 more on each last hop: the total is no float, and the bound
/// is held against the whole number.
#[test]
fn wide_costs() {
    let mut bytes = W.to_vec();
    bytes[204..208].copy_from_slice(&16_777_205u32.to_be_bytes());
    bytes[224..228].copy_from_slice(&16_777_206u32.to_be_bytes());
    let wide = Profile::new(&bytes[..]).unwrap();
    let path = Path {
        addresses: EVERY[0].to_vec(),
        total: 16_777_217,
        total_float: 16_777_216.0,
        round: 1,
    };
    let bounded = |bound| Request {
        bound: Some(bound),
        ..request()
    };
    assert_eq!(wide.first(&request()), Ok(Some(path.clone())));
    assert_eq!(wide.first(&bounded(path.total_float)), Ok(None));
    assert_eq!(wide.first(&bounded(16_777_218.0)), Ok(Some(path)));
    bytes[224] = 1;
    assert_eq!(check_profile(&bytes), refusal(Call::CheckProfile, 17, 10));
}

#[test]
fn rounds() {
    type Case<'a> = (&'a [[u8; 8]], u32, &'a [[Ipv4Addr; 4]], [u32; 5]);
    let cases: [Case; 4] = [
        (&[without(DESIRED, Q)], 1, &EVERY[..1], [14, 4, 0, 2, 3]),
        (
            &[without(DESIRED, P), without(DESIRED, Q)],
            2,
            &EVERY,
            [14, 4, 11, 2, 3],
        ),
        (
            &[without(0, P), without(DESIRED, Q)],
            2,
            &EVERY[1..],
            [14, 0, 11, 2, 3],
        ),
        (&[without(0, P), without(0, Q)], 1, &[], [0, 0, 0, 2, 3]),
    ];
    for (exclude, round, paths, costs) in cases {
        let request = Request {
            exclude: &exclude.concat(),
            ..request()
        };
        listed_in(round, request, paths);
        costed_in(round, request, costs);
    }
    // AS 64511, which W lacks: the bound alone leaves no path in either round,
    // and the tree, which it isn't applied to, is of the second.
    let request = Request {
        exclude: &[DESIRED | 32, 4, 0xFB, 0xFF],
        bound: Some(13.0),
        ..request()
    };
    assert_eq!(w().first(&request), Ok(None));
    costed_in(2, request, [14, 4, 11, 2, 3]);
}

#[test]
fn next() {
    let after = |given: &[Ipv4Addr]| {
        let path = w().next(&request(), given);
        path.map(|path| path.map(|path| path.addresses))
    };
    assert_eq!(after(&[S, P, T, Z]), Ok(Some(vec![S, P, U, Z])));
    assert_eq!(after(&[S, P, U, Z]), Ok(Some(vec![S, Q, T, Z])));
    assert_eq!(after(&[S, Q, U, Z]), Ok(None));
    assert_eq!(after(&[S, P, Z]), refusal(Call::Next, 33, 0));
}

#[test]
fn refusals() {
    let request = request();
    let long: &[u8] = &[0; 1025];
    let refused = |request: Request, number, place| {
        assert_eq!(w().tree(&request), refusal(Call::Tree, number, place));
        let first = refusal(Call::First, number, place);
        assert_eq!(w().first(&request), first);
        assert_eq!(w().paths(&request).map(|_| None), first);
        let next = w().next(&request, &EVERY[0]);
        assert_eq!(next, refusal(Call::Next, number, place));
    };
    let include = BACK;
    refused(Request { include, ..request }, 30, 8);
    refused(
        Request {
            ingress: 3,
            ..request
        },
        20,
        0,
    );
    for wrong in [-1.0, -0.0, f32::INFINITY, f32::NAN] {
        let bandwidth = wrong;
        refused(
            Request {
                bandwidth,
                ..request
            },
            21,
            0,
        );
        let bound = Some(wrong);
        refused(Request { bound, ..request }, 21, 1);
    }
    refused(
        Request {
            include: long,
            ..request
        },
        22,
        0,
    );
    refused(
        Request {
            exclude: long,
            ..request
        },
        22,
        1,
    );
}

#[test]
fn profiles() {
    assert_eq!(check_profile(W), Ok(()));
    assert_eq!(check_profile(&[]), refusal(Call::CheckProfile, 10, 0));
    let mut wrong = W.to_vec();
    wrong[78] = 3; // record 3 is now from 192.0.3.1
    let refused = Profile::new(wrong).map(|_| ());
    assert_eq!(refused, refusal(Call::CheckProfile, 16, 3));
}

#[test]
fn lists() {
    // 64500 with OSPF area 0, 64501 with the areas 0 and 4
    let mut areas = b"DSP\x00\x01\x00\x00\x03\x00\x00\x00\x00".to_vec();
    for record in [[0xF4, 1, 4, 0], [0xF5, 1, 4, 0], [0xF5, 1, 4, 4]] {
        areas.extend([0, 0, 0xFB, record[0], record[1], record[2]]);
        areas.extend([0, 0, 0, record[3], 0, 0, 0, 0, 0, 0, 0, 0, 0, 0]);
    }
    let areas = Profile::new(areas).unwrap();
    let written = [
        [5, 8, 0, 0, 0, 0, 0xFB, 0xF4],
        [6, 8, 0, 0, 0, 0, 0, 0],
        [5, 8, 0, 0, 0, 0, 0xFB, 0xF5],
        [6, 8, 0, 0, 0, 0, 0, 0],
        [6, 8, 0, 0, 0, 0, 0, 4],
    ]
    .concat();
    let sequence = [0, 1, 2].map(Stop::new).to_vec();
    assert_eq!(areas.read_include(0, &written), Ok(sequence.clone()));
    assert_eq!(areas.read_include(0, &written[16..]), Ok(sequence.clone()));
    assert_eq!(areas.write_list(&sequence), Ok(written.clone()));

    let through_u = |domain| Stop {
        pin: Some(U),
        ..Stop::new(domain)
    };
    let pinned = vec![Stop::new(0), through_u(2), Stop::new(1)];
    let list = areas.write_list(&pinned).unwrap();
    assert_eq!(areas.read_include(0, &list), Ok(pinned));
    assert_eq!(
        areas.read_include(0, &written[16..24]),
        refusal(Call::ReadInclude, 29, 0)
    );
    assert_eq!(
        areas.read_include(3, &[]),
        refusal(Call::ReadInclude, 20, 0)
    );
    for wrong in [
        &[][..],
        &[Stop::new(0), Stop::new(0)],
        &[Stop::new(3)],
        &[through_u(0)],
    ] {
        assert_eq!(areas.write_list(wrong), refusal(Call::WriteList, 35, 0));
    }
}
