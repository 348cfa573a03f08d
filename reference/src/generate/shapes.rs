//! Profiles that pass every check, in many shapes.

use super::draft::{domain_record, Draft, Hops, Record};
use super::large;
use super::random::Random;
use crate::profile::{Hop, IS_IS, NO_AREA, OSPF};
use crate::reserved;
use std::collections::{BTreeMap, BTreeSet};

/// Float bits that hops often have, so that requests meet them exactly.
const BANDWIDTHS: [u32; 8] = [
    0,
    1,
    0x42C8_0000,
    0x447A_0000,
    0x447A_0001,
    0x7F7F_FFFF,
    0x0080_0000,
    0x3F80_0000,
];

/// AS numbers at the edges of the reserved ranges, outside them, and beside those
/// that are nobody's.
pub const FREE_AS: [u32; 8] = [1, 23_455, 64_495, 64_512, 23_457, 65_535, 65_552, u32::MAX];

/// AS numbers that no domain and no list may have.
pub const NOBODYS_AS: [u32; 2] = [0, 23_456];

/// AS numbers at the edges of the reserved ranges, inside them.
pub const RESERVED_AS: [u32; 4] = [64_496, 64_511, 65_536, 65_551];

/// Addresses at the edges of the reserved ranges, outside them.
pub const FREE_NODES: [u32; 8] = [
    0xC000_01FF,
    0xC000_0300,
    0xC633_63FF,
    0xC633_6500,
    0xCB00_70FF,
    0xCB00_7200,
    0,
    u32::MAX,
];

/// Addresses at the edges of the reserved ranges, inside them.
pub const RESERVED_NODES: [u32; 6] = [
    0xC000_0200,
    0xC000_02FF,
    0xC633_6400,
    0xC633_64FF,
    0xCB00_7100,
    0xCB00_71FF,
];

/// A valid profile: mostly small ones in which paths exist.
pub fn valid(random: &mut Random) -> Draft {
    match random.below(40) {
        0 => large::largest(random),
        1 => scattered(random, 64, 3000),
        2..=3 => scattered(random, 64, 150),
        4..=6 => chain(random, 16, 16),
        7..=9 => chain(random, 20, 5),
        10..=16 => chain(random, 8, 4),
        17 => bare(random),
        _ => dense(random),
    }
}

/// A valid profile small enough to list every path.
pub fn small(random: &mut Random) -> Draft {
    if random.chance(1, 3) {
        chain(random, 6, 3)
    } else {
        dense(random)
    }
}

/// Few domains and nodes with many hops among them.
fn dense(random: &mut Random) -> Draft {
    let live = random.chance(1, 2);
    let count = random.pick(&[1, 2, 3, 3, 4, 4, 5, 5]);
    let nodes = nodes(random, live, 4);
    let fill = random.pick(&[1, 2, 3, 4, 4]);
    let style = Style::new(random);
    let mut hops = Hops::default();
    for from in 0..count {
        for to in 0..count {
            for &u in &nodes {
                for &v in &nodes {
                    if random.chance(fill, 4) {
                        hops.add(style.hop(random, from, to, u, v));
                    }
                }
            }
        }
    }
    Draft {
        live,
        domains: domains(random, live, count),
        hops: hops.records(),
    }
}

/// Domains one after the other, each with its own entry nodes; in most of
/// them a path can end.
fn chain(random: &mut Random, most_domains: usize, most_nodes: usize) -> Draft {
    let live = random.chance(1, 2);
    let count = random
        .between(1, most_domains)
        .max(random.between(1, most_domains));
    let order = shuffled(random, count);
    let style = Style::new(random);
    let ends = nodes(random, live, 2);
    let mut hops = Hops::default();
    let mut here = nodes(random, live, 1);
    for (i, &domain) in order.iter().enumerate() {
        if random.chance(3, 4) {
            link(random, &style, &mut hops, (domain, domain), &here, &ends);
        }
        if let Some(&after) = order.get(i + 1) {
            let wide = random.between(1, most_nodes);
            let there = nodes(random, live, wide);
            link(random, &style, &mut hops, (domain, after), &here, &there);
            here = there;
        }
    }
    Draft {
        live,
        domains: domains(random, live, count),
        hops: hops.records(),
    }
}

/// Most of the hops from each of `here` to each of `there`.
fn link(
    random: &mut Random,
    style: &Style,
    hops: &mut Hops,
    (from, to): (usize, usize),
    here: &[u32],
    there: &[u32],
) {
    for &u in here {
        for &v in there {
            if random.chance(19, 20) {
                hops.add(style.hop(random, from, to, u, v));
            }
        }
    }
}

/// Any domains, any hops between them, also far more than 16 end points.
fn scattered(random: &mut Random, most_domains: usize, most_hops: usize) -> Draft {
    let live = random.chance(1, 2);
    let count = random.between(1, most_domains);
    let wide = random.between(1, 40);
    let nodes = nodes(random, live, wide);
    let style = Style::new(random);
    let mut hops = Hops::default();
    for _ in 0..random.between(0, most_hops) {
        let from = random.below(count);
        let to = if random.chance(1, 4) {
            from
        } else {
            random.below(count)
        };
        let (u, v) = (random.pick(&nodes), random.pick(&nodes));
        hops.add(style.hop(random, from, to, u, v));
    }
    Draft {
        live,
        domains: domains(random, live, count),
        hops: hops.records(),
    }
}

/// Domains and no hop at all.
fn bare(random: &mut Random) -> Draft {
    let live = random.chance(1, 2);
    let count = random.between(1, 64);
    Draft {
        live,
        domains: domains(random, live, count),
        hops: Vec::new(),
    }
}

/// The least and the most that a hop of one profile costs: mostly little, so that
/// totals are often equal, else much up to the limit.
const COSTS: [(usize, usize); 16] = [
    (0, 0),
    (0, 0),
    (0, 0),
    (0, 1),
    (0, 1),
    (0, 1),
    (0, 2),
    (0, 3),
    (0, 9),
    (0, 65_535),
    (0, 65_536),
    (0, 1 << 20),
    (0, 16_777_215),
    (16_777_215, 16_777_215),
    (16_777_214, 16_777_215),
    (16_777_213, 16_777_215),
];

/// What the costs and bandwidths of one profile look like.
pub struct Style {
    costs: (usize, usize),
    fixed_bandwidth: Option<u32>,
}

impl Style {
    pub fn new(random: &mut Random) -> Style {
        let costs = random.pick(&COSTS);
        let fixed = random.pick(&BANDWIDTHS);
        Style {
            costs,
            fixed_bandwidth: random.chance(1, 2).then_some(fixed),
        }
    }

    pub fn hop(&self, random: &mut Random, from: usize, to: usize, u: u32, v: u32) -> Hop {
        let cost = random.between(self.costs.0, self.costs.1) as u32;
        let bandwidth = match self.fixed_bandwidth {
            Some(bits) => bits,
            None if random.chance(1, 10) => random.bits() % 0x7F80_0000,
            None => random.pick(&BANDWIDTHS),
        };
        Hop {
            from,
            to,
            u,
            v,
            cost,
            bandwidth,
        }
    }
}

/// `count` domain records in order, of one AS or of many.
pub fn domains(random: &mut Random, live: bool, count: usize) -> Vec<Record> {
    // The reserved AS numbers are 32, so more domains than that need areas.
    let plain_share = if count > 20 {
        random.below(2)
    } else {
        random.below(5)
    };
    let spread = random.pick(&[3, 40]);
    let mut plain: BTreeMap<u32, bool> = BTreeMap::new();
    let mut records = BTreeSet::new();
    while records.len() < count {
        let as_number = as_number(random, live, spread);
        // Of few AS numbers one must have areas, or the count isn't reached.
        let may_be_plain = spread > 3 || !plain.is_empty();
        let is_plain = *plain
            .entry(as_number)
            .or_insert_with(|| may_be_plain && random.chance(plain_share, 4));
        records.insert(if is_plain {
            domain_record(as_number, NO_AREA, &[])
        } else {
            let (kind, area) = area(random);
            domain_record(as_number, kind, &area)
        });
    }
    records.into_iter().collect()
}

/// An AS number the class allows; a small `spread` makes them come back, so
/// that one AS gets several areas.
fn as_number(random: &mut Random, live: bool, spread: usize) -> u32 {
    let pick = random.below(spread);
    match (live, pick) {
        (false, 0..=3) => random.pick(&RESERVED_AS),
        (false, _) => random.pick(&[64_496, 65_536]) + random.below(16) as u32,
        (true, 0..=7) => FREE_AS[pick],
        (true, _) => free(random, |value| {
            reserved::as_number(value) || reserved::nobodys(value)
        }),
    }
}

/// An AS number of any size that a list may have, whether or not the profile has
/// it.
pub fn any_as(random: &mut Random) -> u32 {
    loop {
        let value = random.bits() >> random.below(32);
        if !reserved::nobodys(value) {
            return value;
        }
    }
}

/// An area of either kind; small numbers are frequent, so that different AS
/// share areas.
pub fn area(random: &mut Random) -> (u8, Vec<u8>) {
    if random.chance(1, 2) {
        let area = if random.chance(9, 10) {
            random.below(6) as u32
        } else {
            random.bits()
        };
        return (OSPF, area.to_be_bytes().to_vec());
    }
    let length = random.between(1, 13);
    let bytes = (0..length)
        .map(|_| random.pick(&[0x49, 0, 0, 1, 0xFF]))
        .collect();
    (IS_IS, bytes)
}

/// `count` different addresses the class allows.
pub fn nodes(random: &mut Random, live: bool, count: usize) -> Vec<u32> {
    let mut nodes = BTreeSet::new();
    while nodes.len() < count {
        nodes.insert(match (live, random.chance(1, 4)) {
            (false, true) => random.pick(&RESERVED_NODES),
            (false, false) => {
                random.pick(&[0xC000_0200, 0xC633_6400, 0xCB00_7100]) + random.below(256) as u32
            }
            (true, true) => random.pick(&FREE_NODES),
            (true, false) => free(random, reserved::address),
        });
    }
    nodes.into_iter().collect()
}

/// A number that isn't set apart.
fn free(random: &mut Random, set_apart: fn(u32) -> bool) -> u32 {
    loop {
        let value = if random.chance(1, 2) {
            random.bits()
        } else {
            random.bits() % 65_536
        };
        if !set_apart(value) {
            return value;
        }
    }
}

/// The numbers below `count` in any order.
pub fn shuffled(random: &mut Random, count: usize) -> Vec<usize> {
    let mut order: Vec<usize> = (0..count).collect();
    for i in (1..count).rev() {
        order.swap(i, random.below(i + 1));
    }
    order
}
