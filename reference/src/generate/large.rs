//! The largest profile, and one with as many equal shortest paths as the
//! limits allow. Both have a sequence of 16 domains to cross.

use super::draft::{domain_record, hop_record, Draft, Hops};
use super::lists::{address_piece, write_route, Piece};
use super::random::Random;
use super::requests::RequestCase;
use crate::check::check;
use crate::profile::{hop_of, Hop, IS_IS, OSPF};
use crate::sequence::Stop;
use crate::writer;

/// Where the paths through both profiles start and end.
const SOURCE: u32 = 0xC000_0201;
const DESTINATION: u32 = 0xC000_02FE;

/// The hop bandwidth of both profiles, 1000.0.
const BANDWIDTH: u32 = 0x447A_0000;

/// 64 domains, 3,000 hops: 16 entry nodes for each of D1 to D15, with 212 of
/// the 256 possible hops between one set and the next.
pub fn largest(random: &mut Random) -> Draft {
    let mut hops = Hops::default();
    for i in 0..16 {
        let pairs = if i == 0 || i == 15 { 16 } else { 212 };
        let goal = hops.len() + pairs;
        // Every node is left by one hop at least and reached by one.
        for j in 0..16 {
            hops.add(crossing(random, i, j, j));
        }
        while hops.len() < goal {
            let (j, l) = (random.below(16), random.below(16));
            hops.add(crossing(random, i, j, l));
        }
    }
    Draft {
        live: false,
        domains: two_areas_each(),
        hops: hops.records(),
    }
}

/// A hop of step `i`, from node `j` of domain `i` to node `l` of the next. Its
/// cost is small whatever the limit, so that times stay comparable.
fn crossing(random: &mut Random, i: usize, j: usize, l: usize) -> Hop {
    let cost = random.below(4) as u32;
    step_hop(i, j, l, cost)
}

/// Raises these costs to what the limit allows, but those of the last step by 8
/// less, so that a small total becomes one between two floats. A path has one hop
/// of each step, so the shortest ones stay the same.
pub fn raise(draft: &mut Draft) {
    for record in &mut draft.hops {
        let mut hop = hop_of(record);
        hop.cost += match hop.from == hop.to {
            true => 16_777_204,
            false => 16_777_212,
        };
        *record = hop_record(&hop);
    }
}

fn step_hop(i: usize, j: usize, l: usize, cost: u32) -> Hop {
    let u = if i == 0 { SOURCE } else { entry_node(i, j) };
    let v = if i == 15 {
        DESTINATION
    } else {
        entry_node(i + 1, l)
    };
    Hop {
        from: i,
        to: (i + 1).min(15),
        u,
        v,
        cost,
        bandwidth: BANDWIDTH,
    }
}

/// Node `j` of domain `i`, in 198.51.100.0/24 (16 sets of 16).
fn entry_node(i: usize, j: usize) -> u32 {
    0xC633_6400 + (i * 16 + j) as u32
}

/// All 32 reserved AS numbers, each with one OSPF and one IS-IS area.
fn two_areas_each() -> Vec<[u8; 20]> {
    (64_496..64_512)
        .chain(65_536..65_552)
        .flat_map(|as_number| {
            let is_is = [0x49, 0, 1, 0, 0, 0, 0, 0, 0, 0, 0, 0, 7];
            [
                domain_record(as_number, OSPF, &[0; 4]),
                domain_record(as_number, IS_IS, &is_is),
            ]
        })
        .collect()
}

/// How many entry nodes each of D1 to D15 has in the profile of equal paths.
/// 16 for each would make 2^60 paths but take 3,616 hops. These take exactly
/// 3,000 and make 16^2 x 15^6 x 14^7 paths, a little above 2^58: the most there
/// can be when every node of a domain leads to every node of the next.
pub const EQUAL_PATHS_WIDTHS: [usize; 15] =
    [16, 14, 15, 14, 15, 14, 15, 14, 15, 14, 15, 14, 15, 14, 16];

/// 16 domains, every hop of cost 1, every path a shortest path.
pub fn equal_paths() -> Draft {
    let mut hops = Hops::default();
    for i in 0..16 {
        let here = if i == 0 { 1 } else { EQUAL_PATHS_WIDTHS[i - 1] };
        let there = if i == 15 { 1 } else { EQUAL_PATHS_WIDTHS[i] };
        for j in 0..here {
            for l in 0..there {
                hops.add(step_hop(i, j, l, 1));
            }
        }
    }
    let domains = (64_496..64_512)
        .map(|as_number| domain_record(as_number, 0, &[]))
        .collect();
    Draft {
        live: false,
        domains,
        hops: hops.records(),
    }
}

/// The request that crosses all 16 domains of the largest profile, with an EXRS
/// for each but the first: 1,024 bytes in all. They speak of what the profile
/// lacks, so that each entry is held against all of its EXRS; for two rounds the
/// first of them also desires away all entry nodes of the second domain, which a
/// tree worked out from the last domain on meets last but one.
pub fn with_exrs(draft: &Draft, rounds: u32) -> RequestCase {
    let mut case = crossing_request(draft);
    let exrs: Vec<Piece> = (0..16).map(|i| lacked_exrs(i, rounds)).collect();
    let stop = |i: usize| Stop {
        domain: i,
        entry: None,
        exrs: exrs[i..i + usize::from(i > 0)]
            .iter()
            .map(Vec::as_slice)
            .collect(),
    };
    let stops: Vec<Stop> = (0..16).map(stop).collect();
    let profile = check(&case.profile).expect("it is accepted");
    case.include = writer::write(&profile, &stops).expect("it fits");
    assert_eq!(case.include.len(), 1_024);
    case
}

/// The EXRS of domain `i`: 48 bytes, in the first two 56.
fn lacked_exrs(i: usize, rounds: u32) -> Piece {
    let nodes = if i < 3 { 6 } else { 5 };
    // 203.0.113.0/24 and AS 1 are nowhere in the profile.
    let node = |j: usize| address_piece(0xCB00_7100 + (8 * i + j) as u32, 32, 1);
    let mut inside: Vec<Piece> = (0..nodes).map(node).collect();
    inside.push(vec![32, 4, 0, 1]);
    if (i, rounds) == (1, 2) {
        let mut all = address_piece(entry_node(1, 0), 28, 1);
        all[0] |= 0x80;
        inside[0] = all;
    }
    let inside = inside.concat();
    [&[33, 4 + inside.len() as u8, 0, 0], &inside[..]].concat()
}

/// The request that crosses all 16 domains of either profile.
pub fn crossing_request(draft: &Draft) -> RequestCase {
    let route: Vec<usize> = (0..16).collect();
    RequestCase {
        profile: draft.encode(),
        ingress: 0,
        source: SOURCE,
        destination: DESTINATION,
        include: write_route(draft, &route),
        exclude: Vec::new(),
        bandwidth_bits: BANDWIDTH,
        bound_counts: false,
        bound_bits: 0,
        path: vec![0; 17],
        level: vec![0; 241],
        address: vec![0; 241],
        reachable: vec![0; 241],
        cost: vec![0; 241],
    }
}
