//! Document 01's profile W, written out by hand, and short ways to call.
#![allow(dead_code)]

pub mod desired;
pub mod messages;
pub mod nobodys;
pub mod replies;
pub mod rows;

use reference::generate::Reading;
use reference::Request;

pub const S: u32 = 0xC000_0201;
pub const P: u32 = 0xC000_020B;
pub const Q: u32 = 0xC000_020C;
pub const T: u32 = 0xC000_0215;
pub const U: u32 = 0xC000_0216;
pub const Z: u32 = 0xC000_0263;

pub const B1000: u32 = 0x447A_0000;
pub const B100: u32 = 0x42C8_0000;

/// 64497, 64498 in the short form of an AS.
pub const SHORT: [u8; 8] = [0x20, 0x04, 0xFB, 0xF1, 0x20, 0x04, 0xFB, 0xF2];

/// What lies in a lent buffer before a call.
pub const OLD: u32 = 0xAAAA_AAAA;

pub fn header(class: u8, domains: u16, hops: u16) -> Vec<u8> {
    let mut bytes = vec![0x44, 0x53, 0x50, 0, 1, class];
    bytes.extend(domains.to_be_bytes());
    bytes.extend(hops.to_be_bytes());
    bytes.extend([0, 0]);
    bytes
}

pub fn domain(as_number: u32, kind: u8, area: &[u8]) -> Vec<u8> {
    let mut record = as_number.to_be_bytes().to_vec();
    record.extend([kind, area.len() as u8]);
    record.extend(area);
    record.resize(20, 0);
    record
}

/// Domains without areas, in the order given.
pub fn plain_domains(as_numbers: &[u32]) -> Vec<Vec<u8>> {
    let record = |&as_number: &u32| domain(as_number, 0, &[]);
    as_numbers.iter().map(record).collect()
}

pub fn hop(from: u16, to: u16, u: u32, v: u32, cost: u32, bandwidth: u32) -> Vec<u8> {
    let mut record = from.to_be_bytes().to_vec();
    record.extend(to.to_be_bytes());
    for word in [u, v, cost, bandwidth] {
        record.extend(word.to_be_bytes());
    }
    record
}

pub fn file(class: u8, domains: &[Vec<u8>], hops: &[Vec<u8>]) -> Vec<u8> {
    let mut bytes = header(class, domains.len() as u16, hops.len() as u16);
    bytes.extend(domains.concat());
    bytes.extend(hops.concat());
    bytes
}

pub fn profile_w() -> Vec<u8> {
    let domains = [
        domain(64496, 0, &[]),
        domain(64497, 0, &[]),
        domain(64498, 0, &[]),
    ];
    let hops = [
        hop(0, 1, S, P, 10, B1000),
        hop(0, 1, S, Q, 3, B1000),
        hop(1, 2, P, T, 3, B1000),
        hop(1, 2, P, U, 1, B1000),
        hop(1, 2, Q, T, 9, B1000),
        hop(1, 2, Q, U, 8, B100),
        hop(2, 2, T, Z, 2, B1000),
        hop(2, 2, U, Z, 3, B1000),
    ];
    file(0, &domains, &hops)
}

/// The request of document 01's cases: ingress 0, S to Z, bandwidth 100.0.
pub fn ask<'a>(profile: &'a [u8], include: &'a [u8]) -> Request<'a> {
    Request {
        profile,
        ingress: 0,
        source: S,
        destination: Z,
        include,
        exclude: &[],
        bandwidth_bits: B100,
        bound_counts: false,
        bound_bits: 0,
    }
}

/// Number, numbers and buffer of a first with `capacity`.
pub fn first(request: &Request, capacity: usize) -> (u32, [u32; 4], Vec<u32>) {
    let mut path = vec![OLD; capacity];
    let mut numbers = [7; 4];
    let number = reference::first(request, &mut path, &mut numbers);
    (number, numbers, path)
}

pub fn next(request: &Request, given: &[u32], capacity: usize) -> (u32, [u32; 4], Vec<u32>) {
    let mut path = vec![OLD; capacity];
    let mut numbers = [7; 4];
    let number = reference::next(request, given, &mut path, &mut numbers);
    (number, numbers, path)
}

/// Everything first and then next after next gives, with total and round.
pub fn listing(request: &Request, length: usize) -> Vec<(Vec<u32>, u32, u32)> {
    let mut found = Vec::new();
    let (mut number, mut numbers, mut path) = first(request, length);
    while number == 0 {
        found.push((path.clone(), numbers[1], numbers[3]));
        (number, numbers, path) = next(request, &path.clone(), length);
    }
    let expected_end = if found.is_empty() { 1 } else { 2 };
    assert_eq!(
        (number, numbers, path),
        (expected_end, [0; 4], vec![OLD; length])
    );
    found
}

/// An entry of the tree: level, address, mark of reachability, cost.
pub type Entry = (u32, u32, u8, u32);

/// The entries of the tree, the hops examined and the round, with room to spare.
pub fn tree(request: &Request) -> (Vec<Entry>, u32, u32) {
    let (mut level, mut address, mut cost) = (vec![OLD; 300], vec![OLD; 300], vec![OLD; 300]);
    let mut reachable = vec![0xAA; 300];
    let mut numbers = [7; 4];
    let number = reference::tree(
        request,
        &mut level,
        &mut address,
        &mut reachable,
        &mut cost,
        &mut numbers,
    );
    assert_eq!((number, numbers[0]), (0, 0));
    let count = numbers[1] as usize;
    let past = (level[count], address[count], reachable[count], cost[count]);
    assert_eq!(past, (OLD, OLD, 0xAA, OLD), "past the result");
    let entries = (0..count)
        .map(|i| (level[i], address[i], reachable[i], cost[i]))
        .collect();
    (entries, numbers[2], numbers[3])
}

/// The sequence with its entry constraints and EXRS, or number and place.
pub fn read(profile: &[u8], ingress: u16, include: &[u8]) -> Reading {
    let (mut domains, mut pinned, mut pins) = ([0xAAAA; 16], [0xAA; 16], [OLD; 16]);
    let (mut exrs_counts, mut exrs) = ([OLD; 16], [0xAA; 1024]);
    let mut numbers = [7; 3];
    let number = reference::read_include(
        profile,
        ingress,
        include,
        &mut domains,
        &mut pinned,
        &mut pins,
        &mut exrs_counts,
        &mut exrs,
        &mut numbers,
    );
    if number != 0 {
        assert_eq!(numbers[1..], [0, 0]);
        assert_eq!(
            (domains, pinned, pins, exrs_counts, exrs),
            ([0xAAAA; 16], [0xAA; 16], [OLD; 16], [OLD; 16], [0xAA; 1024])
        );
        return Err((number, numbers[0]));
    }
    let [_, count, bytes] = numbers.map(|number| number as usize);
    assert!(exrs[bytes..].iter().all(|&byte| byte == 0xAA));
    let mut rest = &exrs[..bytes];
    let mut stops = Vec::new();
    for i in 0..count {
        let (own, after) = rest.split_at(exrs_counts[i] as usize);
        let entry = (pinned[i] == 1).then_some(pins[i]);
        stops.push((domains[i], entry, own.to_vec()));
        rest = after;
    }
    assert!(rest.is_empty());
    Ok(stops)
}

/// A sequence with these entry constraints and no EXRS.
pub fn without_exrs(stops: impl IntoIterator<Item = (u16, Option<u32>)>) -> Reading {
    let stop = |(domain, entry)| (domain, entry, Vec::new());
    Ok(stops.into_iter().map(stop).collect())
}

pub fn check(profile: &[u8]) -> (u32, u32) {
    let mut numbers = [7];
    let number = reference::check_profile(profile, &mut numbers);
    (number, numbers[0])
}
