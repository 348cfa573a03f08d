//! Profiles with one thing wrong, and the number and place that belongs to it.
//! The expectation follows from where the damage was done to a valid profile,
//! not from a check of the result.

use super::draft::{domain_record, hop_record, Draft, Record};
use super::random::Random;
use super::shapes::{self, FREE_AS, FREE_NODES, NOBODYS_AS, RESERVED_AS, RESERVED_NODES};
use crate::profile::{NO_AREA, OSPF};
use std::collections::{BTreeMap, BTreeSet};

/// A damaged profile and the answer it must get.
#[derive(Clone, Debug)]
pub struct Planned {
    pub bytes: Vec<u8>,
    pub number: u32,
    pub place: usize,
}

pub fn planned(random: &mut Random) -> Planned {
    let draft = shapes::valid(random);
    let damaged = match random.below(21) {
        0..=1 => cut(random, &draft),
        2 => lengthened(random, &draft),
        3..=4 => header_field(random, &draft),
        5..=6 => class_or_count(random, &draft),
        7..=8 => Some(domain_field(random, draft.clone())),
        9..=10 => domain_order(random, draft.clone()),
        11 => after_kind_0(random, draft.clone()),
        12 => Some(domain_pool(random, draft.clone())),
        13 => hop_pool(random, draft.clone()),
        14..=15 => hop_field(random, draft.clone()),
        16..=17 => hop_order(random, draft.clone()),
        18 => seventeenth_node(random, draft.clone()),
        19 => Some(nobodys_as(random, draft.clone())),
        _ => Some(other_class(draft.clone())),
    };
    // Damage that needs a record the profile lacks falls back to a field.
    damaged.unwrap_or_else(|| domain_field(random, draft))
}

fn plan(bytes: Vec<u8>, number: u32, place: usize) -> Planned {
    Planned {
        bytes,
        number,
        place,
    }
}

fn cut(random: &mut Random, draft: &Draft) -> Option<Planned> {
    let mut bytes = draft.encode();
    let length = if random.chance(1, 2) {
        random.below(12)
    } else {
        random.below(bytes.len())
    };
    bytes.truncate(length);
    let number = if length < 12 { 10 } else { 13 };
    Some(plan(bytes, number, 0))
}

fn lengthened(random: &mut Random, draft: &Draft) -> Option<Planned> {
    let mut bytes = draft.encode();
    let more = random.pick(&[1, 19, 20, 21, 40, 70_000]);
    bytes.resize(bytes.len() + more, 0);
    Some(plan(bytes, 13, 0))
}

fn header_field(random: &mut Random, draft: &Draft) -> Option<Planned> {
    let mut bytes = draft.encode();
    let at = random.pick(&[0, 1, 2, 3, 4, 10, 11]);
    bytes[at] ^= random.between(1, 255) as u8;
    Some(plan(bytes, 11, 0))
}

fn class_or_count(random: &mut Random, draft: &Draft) -> Option<Planned> {
    let mut bytes = draft.encode();
    match random.below(6) {
        0 => bytes[5] = random.between(2, 255) as u8,
        1 => bytes[6..8].copy_from_slice(&[0, 0]),
        2 => {
            let count = random.pick(&[65u16, 66, 256, 320, u16::MAX]);
            bytes[6..8].copy_from_slice(&count.to_be_bytes());
        }
        3 => {
            let count = random.pick(&[3001u16, 3002, 4096, u16::MAX]);
            bytes[8..10].copy_from_slice(&count.to_be_bytes());
        }
        4 => return too_many_hops(random, draft.clone()),
        _ => return too_many_domains(random, draft.clone()),
    }
    Some(plan(bytes, 12, 0))
}

/// A file of the right length for its counts, one of which is too high.
fn too_many_hops(random: &mut Random, mut draft: Draft) -> Option<Planned> {
    let more = random.between(3001, 3003);
    draft.hops.resize(more, [0; 20]);
    Some(plan(draft.encode(), 12, 0))
}

fn too_many_domains(random: &mut Random, mut draft: Draft) -> Option<Planned> {
    let count = random.between(65, 70);
    draft.domains = shapes::domains(random, draft.live, count);
    Some(plan(draft.encode(), 12, 0))
}

fn domain_field(random: &mut Random, mut draft: Draft) -> Planned {
    let place = random.below(draft.domains.len());
    let record = &mut draft.domains[place];
    let length = usize::from(record[5]);
    match random.below(5) {
        0 => record[4] = random.between(3, 255) as u8,
        1 => record[5] = wrong_length(random, record[4]),
        2..=3 if length < 13 => record[random.between(6 + length, 18)] = 1,
        _ => record[19] = random.between(1, 255) as u8,
    }
    plan(draft.encode(), 14, place)
}

fn wrong_length(random: &mut Random, kind: u8) -> u8 {
    match kind {
        NO_AREA => random.pick(&[1, 4, 13, 14, 255]),
        OSPF => random.pick(&[0, 3, 5, 13, 255]),
        _ => random.pick(&[0, 14, 15, 255]),
    }
}

/// A record twice, or two neighbours swapped.
fn domain_order(random: &mut Random, mut draft: Draft) -> Option<Planned> {
    let count = draft.domains.len();
    let place = random.below(count);
    if random.chance(1, 2) && count < 64 {
        draft.domains.insert(place, draft.domains[place]);
    } else if place + 1 < count {
        draft.domains.swap(place, place + 1);
    } else {
        return None;
    }
    Some(plan(draft.encode(), 15, place + 1))
}

/// A kind 0 record in front of an area of the same AS.
fn after_kind_0(random: &mut Random, mut draft: Draft) -> Option<Planned> {
    let place = random.below(draft.domains.len());
    let as_number = draft.domain(place).as_number;
    let is_first = place == 0 || draft.domain(place - 1).as_number != as_number;
    if !is_first || draft.domains.len() == 64 {
        return None;
    }
    let kind_0 = domain_record(as_number, NO_AREA, &[]);
    if draft.domain(place).kind == NO_AREA {
        let (kind, area) = shapes::area(random);
        draft
            .domains
            .insert(place + 1, domain_record(as_number, kind, &area));
    } else {
        draft.domains.insert(place, kind_0);
    }
    Some(plan(draft.encode(), 15, place + 1))
}

/// One AS from the other side of the reserved ranges' edges, in its order.
fn domain_pool(random: &mut Random, mut draft: Draft) -> Planned {
    let wrong = if draft.live {
        random.pick(&RESERVED_AS)
    } else {
        random.pick(&FREE_AS)
    };
    let index = random.below(draft.domains.len());
    let place = replace_as(&mut draft, index, wrong);
    plan(draft.encode(), 16, place)
}

/// One AS that is nobody's, in its order or where the record stood, since that is
/// told before the order.
fn nobodys_as(random: &mut Random, mut draft: Draft) -> Planned {
    let wrong = random.pick(&NOBODYS_AS);
    let index = random.below(draft.domains.len());
    let place = if random.chance(1, 2) {
        replace_as(&mut draft, index, wrong)
    } else {
        draft.domains[index][..4].copy_from_slice(&wrong.to_be_bytes());
        index
    };
    plan(draft.encode(), 14, place)
}

/// Gives a domain another AS and puts it in its order; its place there.
fn replace_as(draft: &mut Draft, index: usize, as_number: u32) -> usize {
    draft.domains[index][..4].copy_from_slice(&as_number.to_be_bytes());
    let moved = draft.domains[index];
    draft.domains.sort();
    position(&draft.domains, &moved)
}

/// One node from the other side of the edges, in its order.
fn hop_pool(random: &mut Random, mut draft: Draft) -> Option<Planned> {
    if draft.hops.is_empty() {
        return None;
    }
    let wrong = if draft.live {
        random.pick(&RESERVED_NODES)
    } else {
        random.pick(&FREE_NODES)
    };
    let index = random.below(draft.hops.len());
    let at = random.pick(&[4, 8]);
    draft.hops[index][at..at + 4].copy_from_slice(&wrong.to_be_bytes());
    let moved = draft.hops[index];
    draft.hops.sort();
    let place = draft.domains.len() + position(&draft.hops, &moved);
    Some(plan(draft.encode(), 16, place))
}

fn position(records: &[Record], record: &Record) -> usize {
    records
        .iter()
        .position(|r| r == record)
        .expect("the record is still there")
}

fn hop_field(random: &mut Random, mut draft: Draft) -> Option<Planned> {
    if draft.hops.is_empty() {
        return None;
    }
    let domains = draft.domains.len();
    let index = random.below(draft.hops.len());
    let mut hop = draft.hop(index);
    match random.below(4) {
        0 => hop.from = random.pick(&[domains, domains + 1, 65_535]),
        1 => hop.to = random.pick(&[domains, domains + 1, 65_535]),
        2 => hop.cost = random.pick(&COSTS_OVER),
        _ => hop.bandwidth = random.pick(&OUT_OF_RANGE),
    }
    draft.hops[index] = hop_record(&hop);
    Some(plan(draft.encode(), 17, domains + index))
}

/// One more than the greatest cost, just above it, and far above, with all bits
/// that a cost may have and with none.
const COSTS_OVER: [u32; 6] = [
    16_777_216,
    16_777_217,
    0x01FF_FFFF,
    0x0200_0000,
    0x8000_0000,
    u32::MAX,
];

/// Infinity, NaNs, negative zero and other negative floats.
pub const OUT_OF_RANGE: [u32; 7] = [
    0x7F80_0000,
    0x7F80_0001,
    0x7FC0_0000,
    0x7FFF_FFFF,
    0x8000_0000,
    0xFF80_0000,
    u32::MAX,
];

/// The same hop twice, with another cost, or two neighbours swapped.
fn hop_order(random: &mut Random, mut draft: Draft) -> Option<Planned> {
    let count = draft.hops.len();
    if count == 0 {
        return None;
    }
    let index = random.below(count);
    if random.chance(1, 2) && count < 3000 {
        let mut again = draft.hop(index);
        again.cost = random.below(1 << 24) as u32;
        draft.hops.insert(index + 1, hop_record(&again));
    } else if index + 1 < count {
        draft.hops.swap(index, index + 1);
    } else {
        return None;
    }
    Some(plan(draft.encode(), 18, draft.domains.len() + index + 1))
}

/// Seventeen or more entry nodes for one pair, sometimes for two.
fn seventeenth_node(random: &mut Random, mut draft: Draft) -> Option<Planned> {
    let count = draft.domains.len();
    if count < 2 || draft.hops.len() > 2900 {
        return None;
    }
    for _ in 0..random.between(1, 2) {
        let from = random.below(count);
        let to = (from + random.between(1, count - 1)) % count;
        let wide = random.between(17, 20);
        add_nodes(random, &mut draft, (from, to), wide);
    }
    let place = draft.domains.len() + first_seventeenth(&draft)?;
    Some(plan(draft.encode(), 19, place))
}

fn add_nodes(random: &mut Random, draft: &mut Draft, (from, to): (usize, usize), wide: usize) {
    let style = shapes::Style::new(random);
    let starts = shapes::nodes(random, draft.live, 3);
    for v in shapes::nodes(random, draft.live, wide) {
        let u = random.pick(&starts);
        draft
            .hops
            .push(hop_record(&style.hop(random, from, to, u, v)));
    }
    draft.hops.sort();
    draft.hops.dedup_by(|a, b| a[..12] == b[..12]);
}

/// The first hop that brings a seventeenth node to any pair, counted with
/// sets over the whole file.
fn first_seventeenth(draft: &Draft) -> Option<usize> {
    let mut nodes: BTreeMap<(usize, usize), BTreeSet<u32>> = BTreeMap::new();
    draft.hop_list().iter().position(|hop| {
        let seen = nodes.entry((hop.from, hop.to)).or_default();
        seen.insert(hop.v);
        hop.from != hop.to && seen.len() == 17
    })
}

/// The other class: then the very first AS is from the wrong range.
fn other_class(mut draft: Draft) -> Planned {
    draft.live = !draft.live;
    plan(draft.encode(), 16, 0)
}
