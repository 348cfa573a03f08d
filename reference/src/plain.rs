//! The definitions of paths, rounds, tree and listing taken at their word: list
//! every walk over hop records, then keep those that satisfy each rule. Only for
//! small questions; the tests hold the fast search against it.

use crate::exclusion::Exclusion;
use crate::outcome::NotDone;
use crate::profile::{u16_at, u32_at, Domain, Hop};
use crate::request::{Question, Request};
use std::collections::BTreeMap;

/// A walk over hop records from an entry to the end of the last domain.
#[derive(Clone, Debug)]
struct Walk {
    addresses: Vec<u32>,
    hops: Vec<Hop>,
}

impl Walk {
    fn total(&self) -> u32 {
        self.hops.iter().map(|hop| hop.cost).sum()
    }
}

/// An entry of the tree: domain of the sequence, address, least cost.
#[derive(Clone, Copy, Debug, PartialEq, Eq)]
pub struct TreeEntry {
    pub level: u32,
    pub address: u32,
    pub least: Option<u32>,
}

/// The shortest paths of the round that applies, ascending.
#[derive(Clone, Debug, PartialEq, Eq)]
pub struct Listed {
    pub paths: Vec<Vec<u32>>,
    /// None if there is no path.
    pub total: Option<u32>,
    pub round: u32,
}

/// An accepted request, with the floats as the machine's own. The bound is one of
/// 64 bits, which holds every total and every bound as it is.
#[derive(Clone, Debug)]
pub struct Plain<'a> {
    question: Question<'a>,
    /// What the exclude list excludes in each round; a second where some
    /// exclusion has X set, there or in an EXRS.
    rounds: Vec<Exclusion>,
    /// The subobjects inside the EXRS of each domain of the sequence.
    stretches: Vec<Vec<&'a [u8]>>,
    bandwidth: f32,
    bound: Option<f64>,
}

impl<'a> Plain<'a> {
    pub fn new(request: &Request<'a>) -> Result<Plain<'a>, NotDone> {
        let question = Question::accept(request)?;
        let bound = f64::from(f32::from_bits(request.bound_bits));
        // Read from a request of its own, which has no others.
        let mut demanded = pieces(request.exclude);
        let all = demanded.len();
        demanded.retain(|piece| !desired(piece));
        let inside = |whole: &&'a [u8]| pieces(&whole[4..]);
        let stretches: Vec<Vec<_>> = question
            .stops
            .iter()
            .map(|stop| stop.exrs.iter().flat_map(inside).collect())
            .collect();
        let mut rounds = vec![question.exclusion.clone()];
        let desired_inside = stretches.iter().flatten().any(|piece| desired(piece));
        if demanded.len() < all || desired_inside {
            let exclude = &demanded.concat()[..];
            let alone = Question::accept(&Request {
                exclude,
                ..*request
            })?;
            rounds.push(alone.exclusion);
        }
        Ok(Plain {
            question,
            rounds,
            stretches,
            bandwidth: f32::from_bits(request.bandwidth_bits),
            bound: request.bound_counts.then_some(bound),
        })
    }

    pub fn path_length(&self) -> usize {
        self.question.path_length()
    }

    /// The most walks that are under way at once, from any entry of the tree,
    /// when everything is listed. Dead ends count too, so this can be far
    /// above the number of paths.
    pub fn walk_count(&self) -> u128 {
        let mut most = 1;
        let mut reached = BTreeMap::from([(self.question.source, 1u128)]);
        for i in 0..=self.question.last() {
            let mut onward: BTreeMap<u32, u128> = BTreeMap::new();
            for hop in self.step(i) {
                let ways = reached.get(&hop.u).copied().unwrap_or(0);
                *onward.entry(hop.v).or_default() += ways;
            }
            most = most.max(onward.values().sum());
            // A suffix may begin at each of these nodes.
            onward.values_mut().for_each(|ways| *ways += 1);
            reached = onward;
        }
        most
    }

    /// The round that applies, counted from 0, and its admissible paths.
    fn admissible(&self) -> (usize, Vec<Walk>) {
        let mut walks = self.walks(0, self.question.source);
        walks.retain(|walk| self.bound.is_none_or(|b| f64::from(walk.total()) <= b));
        let of_round = |round: usize| -> Vec<Walk> {
            let kept = walks.iter().filter(|walk| self.keeps_rules(round, 0, walk));
            kept.cloned().collect()
        };
        let first = of_round(0);
        match first.is_empty() && self.rounds.len() > 1 {
            true => (1, of_round(1)),
            false => (0, first),
        }
    }

    /// All admissible paths with the least total.
    pub fn listing(&self) -> Listed {
        let (round, admissible) = self.admissible();
        let total = admissible.iter().map(Walk::total).min();
        let mut paths: Vec<Vec<u32>> = admissible
            .into_iter()
            .filter(|walk| Some(walk.total()) == total)
            .map(|walk| walk.addresses)
            .collect();
        paths.sort();
        Listed {
            paths,
            total,
            round: round as u32 + 1,
        }
    }

    /// The entries of the tree in order, the hops examined, and the round.
    pub fn tree(&self) -> (Vec<TreeEntry>, u32, u32) {
        let (round, _) = self.admissible();
        let mut entries = Vec::new();
        for level in 0..=self.question.last() {
            for address in self.entry_nodes(level) {
                let least = self.least(round, level, address);
                entries.push(TreeEntry {
                    level: level as u32,
                    address,
                    least,
                });
            }
        }
        let of_round = |_| {
            let steps = 0..=self.question.last();
            steps.map(|i| self.step(i).count()).sum::<usize>()
        };
        let tally: usize = (0..=round).map(of_round).sum();
        (entries, tally as u32, round as u32 + 1)
    }

    fn entry_nodes(&self, level: usize) -> Vec<u32> {
        if level == 0 {
            return vec![self.question.source];
        }
        let mut nodes: Vec<u32> = self.step(level - 1).map(|hop| hop.v).collect();
        nodes.sort();
        nodes.dedup();
        nodes
    }

    fn least(&self, round: usize, level: usize, address: u32) -> Option<u32> {
        self.walks(level, address)
            .iter()
            .filter(|walk| self.keeps_rules(round, level, walk))
            .map(Walk::total)
            .min()
    }

    /// The hop records from domain `i` of the sequence to the one after it,
    /// or inside the last.
    fn step(&self, i: usize) -> impl Iterator<Item = Hop> + '_ {
        let stops = &self.question.stops;
        let from = stops[i].domain;
        let to = stops.get(i + 1).map_or(from, |stop| stop.domain);
        self.question
            .profile
            .hops()
            .filter(move |hop| hop.from == from && hop.to == to)
    }

    /// Every walk from `address` in domain `level`, wherever it ends.
    fn walks(&self, level: usize, address: u32) -> Vec<Walk> {
        let mut walks = vec![Walk {
            addresses: vec![address],
            hops: Vec::new(),
        }];
        for i in level..=self.question.last() {
            let hops: Vec<Hop> = self.step(i).collect();
            walks = walks
                .iter()
                .flat_map(|walk| extended(walk, &hops))
                .collect();
        }
        walks
    }

    /// Destination, bandwidth, a round's exclusions and entry constraints, for
    /// a walk that begins in domain `level`.
    fn keeps_rules(&self, round: usize, level: usize, walk: &Walk) -> bool {
        let stops = &self.question.stops[level..];
        let excluded = &self.rounds[round];
        let arrives = walk.addresses.last() == Some(&self.question.destination);
        let wide_enough = walk
            .hops
            .iter()
            .all(|h| f32::from_bits(h.bandwidth) >= self.bandwidth);
        let domains_free = stops.iter().all(|stop| !excluded.domain(stop.domain));
        let addresses_free = walk.addresses.iter().all(|&a| !excluded.address(a));
        let entries_kept = stops
            .iter()
            .zip(&walk.addresses)
            .all(|(stop, &address)| stop.entry.is_none_or(|entry| entry == address));
        let stretches_kept = (level..)
            .zip(&walk.addresses)
            .take(stops.len())
            .all(|(i, &entry)| self.keeps_stretch(round, i, entry));
        arrives && wide_enough && domains_free && addresses_free && entries_kept && stretches_kept
    }

    /// No EXRS of domain `i` hits it or the node through which it is entered.
    fn keeps_stretch(&self, round: usize, i: usize, entry: u32) -> bool {
        let domain = self.question.profile.domain(self.question.stops[i].domain);
        let in_force = |piece: &&&[u8]| round == 0 || !desired(piece);
        let mut pieces = self.stretches[i].iter().filter(in_force);
        !pieces.any(|piece| hits(piece, entry, &domain))
    }
}

/// The subobjects of a well-formed list.
fn pieces(list: &[u8]) -> Vec<&[u8]> {
    let mut pieces = Vec::new();
    let mut rest = list;
    while let Some(&length) = rest.get(1) {
        let (piece, after) = rest.split_at(usize::from(length));
        pieces.push(piece);
        rest = after;
    }
    pieces
}

fn desired(piece: &[u8]) -> bool {
    piece[0] >= 0x80
}

/// A subobject of an exclude list excludes this node or this domain.
fn hits(piece: &[u8], node: u32, domain: &Domain) -> bool {
    match piece[0] % 0x80 {
        1 => {
            let agree = (node ^ u32_at(piece, 2)).leading_zeros();
            agree >= u32::from(piece[6])
        }
        5 => domain.as_number == u32_at(piece, 4),
        32 => domain.as_number == u32::from(u16_at(piece, 2)),
        6 => (domain.kind, domain.area) == (1, &piece[4..8]),
        _ => (domain.kind, domain.area) == (2, &piece[4..4 + usize::from(piece[2])]),
    }
}

fn extended(walk: &Walk, hops: &[Hop]) -> Vec<Walk> {
    let here = walk.addresses[walk.addresses.len() - 1];
    let onward = hops.iter().filter(|hop| hop.u == here);
    onward
        .map(|hop| {
            let mut longer = walk.clone();
            longer.addresses.push(hop.v);
            longer.hops.push(*hop);
            longer
        })
        .collect()
}
