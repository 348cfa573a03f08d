//! The rules for the calls through a PCReq (document 02's request [3]), on
//! profile W and messages typed in by hand.

use crate::common;
use common::messages::*;
use common::{profile_w, B100, OLD, P as NODE_P, Q, S, SHORT, T, U, Z};
use reference::PcReq;

fn first(ingress: u16, objects: &[Vec<u8>]) -> (u32, [u32; 4], Vec<u32>) {
    let (profile, message) = (profile_w(), message(PCREQ, objects));
    let asked = PcReq {
        profile: &profile,
        ingress,
        message: &message,
    };
    let (mut path, mut numbers) = (vec![OLD; 5], [7; 4]);
    let number = reference::pcreq_first(&asked, &mut path, &mut numbers);
    (number, numbers, path)
}

fn w(more: &[Vec<u8>]) -> Vec<Vec<u8>> {
    [
        &[rp(1, 0), end_points(S, Z), bandwidth(B100), iro(&SHORT)],
        more,
    ]
    .concat()
}

fn found(path: [u32; 4]) -> (u32, [u32; 4], Vec<u32>) {
    (0, [0, 14, 0x4160_0000, 1], [&path[..], &[OLD]].concat())
}

fn told(number: u32, place: u32) -> (u32, [u32; 4], Vec<u32>) {
    (number, [place, 0, 0, 0], vec![OLD; 5])
}

#[test]
fn the_request_that_a_pcreq_carries() {
    assert_eq!(first(0, &w(&[])), found([S, NODE_P, U, Z]));
    let narrow = [bandwidth(0x42C8_0001)];
    assert_eq!(
        first(0, &[&narrow[..], &w(&[])].concat()),
        found([S, NODE_P, U, Z])
    );
    let without_p = [1, 8, 0xC0, 0, 2, 11, 32, 1];
    assert_eq!(first(0, &w(&[xro(&without_p)])), found([S, Q, T, Z]));
    assert_eq!(
        first(0, &[rp(1, 0), end_points(S, Z)]),
        told(1, 0),
        "no IRO"
    );
}

#[test]
fn the_bound_is_the_first_metric_with_b_set() {
    let bound = |bits: f32| metric(1, B, bits.to_bits());
    let free = metric(2, 0xFE, 1.0f32.to_bits());
    let spuz = found([S, NODE_P, U, Z]);
    assert_eq!(first(0, &w(&[bound(14.0)])), spuz);
    assert_eq!(first(0, &w(&[bound(13.0)])), told(1, 0));
    assert_eq!(first(0, &w(&vec![free.clone(); 2])), spuz, "B clear");
    assert_eq!(
        first(0, &w(&[free.clone(), bound(14.0), bound(13.0)])),
        spuz
    );
    assert_eq!(first(0, &w(&[bound(13.0), bound(14.0)])), told(1, 0));
    for kind in [0, 1, 2, 3, 255] {
        let any_kind = metric(kind, 0xFF, 13.0f32.to_bits());
        assert_eq!(first(0, &w(&[any_kind])), told(1, 0));
    }
}

#[test]
fn the_order_of_all_checks() {
    let mut objects = w(&[
        metric(1, 0, u32::MAX),
        xro(&[0; 1028]),
        object(99, 1, P, &[]),
    ]);
    objects[2] = bandwidth(u32::MAX);
    objects[3] = iro(&[0; 1028]);
    let mut step = |expected: (u32, u32), mend: fn(&mut Vec<Vec<u8>>)| {
        assert_eq!(first(3, &objects), told(expected.0, expected.1));
        mend(&mut objects);
    };
    step((38, 2116), |o| _ = o.pop());
    step((20, 0), |_| ());
    let mut step = |expected: (u32, u32), mend: fn(&mut Vec<Vec<u8>>)| {
        assert_eq!(first(0, &objects), told(expected.0, expected.1));
        mend(&mut objects);
    };
    step((21, 0), |o| o[2] = bandwidth(B100));
    step((21, 1), |o| o[4] = metric(1, 0, 0));
    step((22, 0), |o| {
        o[3] = iro(&[&[32, 4, 0, 9][..], &[0; 4]].concat())
    });
    step((22, 1), |o| o[5] = xro(&[0; 4]));
    step((24, 4), |o| o[3] = iro(&[32, 4, 0, 9]));
    step((24, 0), |o| o[5] = xro(&[]));
    step((28, 0), |o| o[3] = iro(&SHORT));
    assert_eq!(first(0, &objects), found([S, NODE_P, U, Z]));
    // The profile goes before them all, and the message before the profile.
    let asked = |message| PcReq {
        profile: &[],
        ingress: 9,
        message,
    };
    let mut numbers = [7; 4];
    let whole = message(PCREQ, &[rp(1, 0), end_points(S, Z), bandwidth(u32::MAX)]);
    let number = reference::pcreq_first(&asked(&whole), &mut [], &mut numbers);
    assert_eq!((number, numbers), (10, [0; 4]));
    let half = message(PCREQ, &[rp(1, 0)]);
    let number = reference::pcreq_first(&asked(&half), &mut [], &mut numbers);
    assert_eq!((number, numbers), (40, [0; 4]));
}

/// Tree, first and next of document 01's first starred case.
#[test]
fn the_three_calls() {
    let (profile, message) = (profile_w(), message(PCREQ, &w(&[])));
    let asked = PcReq {
        profile: &profile,
        ingress: 0,
        message: &message,
    };
    let (mut level, mut address, mut cost) = ([OLD; 6], [OLD; 6], [OLD; 6]);
    let (mut reachable, mut numbers) = ([0xAA; 6], [7; 4]);
    let number = reference::pcreq_tree(
        &asked,
        &mut level,
        &mut address,
        &mut reachable,
        &mut cost,
        &mut numbers,
    );
    assert_eq!((number, numbers), (0, [0, 5, 8, 1]));
    assert_eq!(level, [0, 1, 1, 2, 2, OLD]);
    assert_eq!(address, [S, NODE_P, Q, T, U, OLD]);
    assert_eq!(reachable, [1, 1, 1, 1, 1, 0xAA]);
    assert_eq!(cost, [14, 4, 11, 2, 3, OLD]);
    let next = |given: &[u32], capacity| {
        let (mut path, mut numbers) = (vec![OLD; capacity], [7; 4]);
        let number = reference::pcreq_next(&asked, given, &mut path, &mut numbers);
        (number, numbers, path)
    };
    assert_eq!(next(&[S, NODE_P, U, Z], 5), found([S, Q, T, Z]));
    assert_eq!(next(&[S, Q, T, Z], 5), found([S, Q, U, Z]));
    assert_eq!(next(&[S, Q, U, Z], 5), told(2, 0));
    assert_eq!(next(&[S, NODE_P, T, Z], 5), found([S, NODE_P, U, Z]));
    assert_eq!(next(&[S; 3], 5), told(33, 0));
    assert_eq!(next(&[S; 4], 3), (34, [0; 4], vec![OLD; 3]));
}
