//! Requests, given lists and series of calls.

use super::bounds::set_bound;
use super::damage::{planned, OUT_OF_RANGE};
use super::draft::Draft;
use super::list_damage::{exclude_list, include_list};
use super::lists::{self, entry_node, exclude_pieces, Include};
use super::random::Random;
use super::{rounds, shapes};
use crate::outcome::NotDone;
use crate::paths::ShortestPaths;
use crate::request::{Question, Request};
use crate::series::Call;
use crate::tree::Tree;

/// A request with the buffers to lend for `tree` and `first`.
#[derive(Clone, Debug)]
pub struct RequestCase {
    pub profile: Vec<u8>,
    pub ingress: u16,
    pub source: u32,
    pub destination: u32,
    pub include: Vec<u8>,
    pub exclude: Vec<u8>,
    pub bandwidth_bits: u32,
    pub bound_counts: bool,
    pub bound_bits: u32,
    pub path: Vec<u32>,
    pub level: Vec<u32>,
    pub address: Vec<u32>,
    pub reachable: Vec<u8>,
    pub cost: Vec<u32>,
}

impl RequestCase {
    pub fn request(&self) -> Request<'_> {
        Request {
            profile: &self.profile,
            ingress: self.ingress,
            source: self.source,
            destination: self.destination,
            include: &self.include,
            exclude: &self.exclude,
            bandwidth_bits: self.bandwidth_bits,
            bound_counts: self.bound_counts,
            bound_bits: self.bound_bits,
        }
    }

    pub fn question(&self) -> Result<Question<'_>, NotDone> {
        Question::accept(&self.request())
    }
}

/// A request with a given list and the buffer to lend for `next`.
#[derive(Clone, Debug)]
pub struct NextCase {
    pub request: RequestCase,
    pub given: Vec<u32>,
    pub path: Vec<u32>,
}

/// A request with a series of calls and a buffer for each.
#[derive(Clone, Debug)]
pub struct SeriesCase {
    pub request: RequestCase,
    pub calls: Vec<Call>,
    pub buffers: Vec<Vec<u32>>,
}

/// A request of any kind, refused ones included.
pub fn any(random: &mut Random) -> RequestCase {
    let draft = shapes::valid(random);
    let mut case = accepted_mostly(random, &draft);
    match random.below(30) {
        0..=2 => case.profile = planned(random).bytes,
        3 => case.ingress = out_of_range_ingress(random, &draft),
        4 => case.bandwidth_bits = random.pick(&OUT_OF_RANGE),
        5 => {
            case.bound_bits = random.pick(&OUT_OF_RANGE);
            case.bound_counts = random.chance(1, 2);
        }
        6..=13 => spoil_lists(random, &draft, &mut case),
        _ => {}
    }
    lend(random, &mut case);
    case
}

/// An accepted request on a profile small enough to list every path.
pub fn small(random: &mut Random) -> RequestCase {
    let draft = shapes::small(random);
    let mut case = accepted_mostly(random, &draft);
    lend(random, &mut case);
    case
}

pub fn out_of_range_ingress(random: &mut Random, draft: &Draft) -> u16 {
    let count = draft.domains.len() as u16;
    random.pick(&[count, count + 1, 64, u16::MAX])
}

/// A request with everything well formed. A step without any hop may still
/// leave it without paths, and so may exclusions and the bound.
fn accepted_mostly(random: &mut Random, draft: &Draft) -> RequestCase {
    let mut case = along_a_route(random, draft);
    if random.chance(1, 6) {
        rounds::decide(random, draft, &mut case);
        return case;
    }
    let most_excluded = random.pick(&[0, 0, 0, 0, 0, 1, 2, 6]);
    case.exclude = exclude_pieces(random, draft, most_excluded).concat();
    if random.chance(1, 3) {
        set_bound(random, &mut case);
    }
    case
}

/// A request along a route, without exclusions and bound.
pub fn along_a_route(random: &mut Random, draft: &Draft) -> RequestCase {
    let route = long_route(random, draft);
    let ingress = route[0];
    let mut include = Include::new(draft, ingress);
    include.follow(random, &route);
    let (source, destination) = end_points(random, draft, &route);
    RequestCase {
        profile: draft.encode(),
        ingress: ingress as u16,
        source,
        destination,
        include: include.pieces.concat(),
        exclude: Vec::new(),
        bandwidth_bits: bandwidth(random, draft),
        bound_counts: false,
        bound_bits: random.bits(),
        path: Vec::new(),
        level: Vec::new(),
        address: Vec::new(),
        reachable: Vec::new(),
        cost: Vec::new(),
    }
}

/// The longest of a few routes, because short ones have few paths. Mostly it
/// is cut back to a domain in which a path can end.
fn long_route(random: &mut Random, draft: &Draft) -> Vec<usize> {
    let most = random
        .pick(&[1, 3, 4, 6, 16, 16, 16, 16])
        .min(draft.domains.len());
    let ends: Vec<usize> = draft
        .hop_list()
        .iter()
        .filter(|hop| hop.from == hop.to)
        .map(|hop| hop.from)
        .collect();
    let cut_back = random.chance(4, 5);
    let mut longest = Vec::new();
    for _ in 0..10 {
        let ingress = random.below(draft.domains.len());
        let mut route = lists::route(random, draft, ingress, most);
        while cut_back && route.len() > 1 && !ends.contains(&route[route.len() - 1]) {
            route.pop();
        }
        if route.len() > longest.len() {
            longest = route;
        }
    }
    longest
}

/// A source and a destination: mostly two that a walk over hop records joins.
fn end_points(random: &mut Random, draft: &Draft, route: &[usize]) -> (u32, u32) {
    let joined = (0..8).find_map(|_| joined_ends(random, draft, route));
    let (source, destination) = joined.unwrap_or_else(|| {
        let to = *route.get(1).unwrap_or(&route[0]);
        let last = route[route.len() - 1];
        (
            entry_node(random, draft, route[0], to),
            entry_node(random, draft, last, last),
        )
    });
    match random.below(25) {
        0 => (random.bits(), destination),
        1 => (source, random.bits()),
        2 => (source, source),
        _ => (source, destination),
    }
}

/// The ends of one walk along the route, unless it gets stuck.
fn joined_ends(random: &mut Random, draft: &Draft, route: &[usize]) -> Option<(u32, u32)> {
    let hops = draft.hop_list();
    let mut ends: Option<(u32, u32)> = None;
    for (i, &from) in route.iter().enumerate() {
        let to = *route.get(i + 1).unwrap_or(&from);
        let onward: Vec<(u32, u32)> = hops
            .iter()
            .filter(|hop| hop.from == from && hop.to == to)
            .filter(|hop| ends.is_none_or(|(_, here)| here == hop.u))
            .map(|hop| (hop.u, hop.v))
            .collect();
        if onward.is_empty() {
            return None;
        }
        let (u, v) = random.pick(&onward);
        ends = Some((ends.map_or(u, |(source, _)| source), v));
    }
    ends
}

/// Nothing, or what some hop has, or one bit pattern above or below that.
fn bandwidth(random: &mut Random, draft: &Draft) -> u32 {
    if draft.hops.is_empty() || random.chance(2, 3) {
        return 0;
    }
    // The least of a few, so that not every path is lost.
    let tries = random.between(1, 6);
    let bits = (0..tries)
        .map(|_| draft.hop(random.below(draft.hops.len())).bandwidth)
        .min()
        .unwrap_or(0);
    match random.below(6) {
        0 => bits.saturating_sub(1),
        1 => (bits + 1).min(0x7F7F_FFFF),
        2 => random.bits() % 0x7F80_0000,
        _ => bits,
    }
}

fn spoil_lists(random: &mut Random, draft: &Draft, case: &mut RequestCase) {
    if random.chance(3, 4) {
        let ingress = usize::from(case.ingress);
        let mut include = Include::new(draft, ingress);
        case.include = include_list(random, &mut include, ingress);
    }
    if random.chance(1, 2) {
        let pieces = exclude_pieces(random, draft, 40);
        case.exclude = exclude_list(random, pieces);
    }
}

/// Buffers around the size that is needed, with anything in them.
pub fn lend(random: &mut Random, case: &mut RequestCase) {
    let (path, tree) = match case.question() {
        Ok(question) => (question.path_length(), Tree::new(&question).entry_count()),
        Err(_) => (4, 8),
    };
    let path = random.capacity(path);
    case.path = random.words(path);
    // The four buffers of a tree mostly go together; sometimes one is short.
    let common = random.capacity(tree);
    let mut sizes = [common; 4];
    if random.chance(1, 6) {
        sizes[random.below(4)] = random.capacity(tree);
    }
    case.level = random.words(sizes[0]);
    case.address = random.words(sizes[1]);
    case.reachable = random.bytes(sizes[2]);
    case.cost = random.words(sizes[3]);
}

/// A request and a list to go on from.
pub fn with_given(random: &mut Random, request: RequestCase) -> NextCase {
    let given = match request.question() {
        Ok(question) => given_list(random, &question),
        Err(_) => random.words(4),
    };
    let path = random.capacity(given.len());
    NextCase {
        given,
        path: random.words(path),
        request,
    }
}

/// A shortest path, something near one, a list of entry nodes, or anything.
fn given_list(random: &mut Random, question: &Question) -> Vec<u32> {
    let length = question.path_length();
    let paths = ShortestPaths::new(question.clone());
    let listed = match paths.count() {
        0 => None,
        count => paths.at(u128::from(random.step()) % count),
    };
    let mut given = listed.unwrap_or_else(|| entry_list(random, question));
    match random.below(12) {
        0..=3 => {}
        4..=5 => given = entry_list(random, question),
        6..=8 => {
            let at = random.below(length);
            let step = random.pick(&[1, -1, -1, 256, -256]);
            given[at] = given[at].wrapping_add_signed(step);
        }
        9 => given = random.words(length),
        10 => given = vec![random.pick(&[0, u32::MAX, question.source]); length],
        _ => {
            let other = random.pick(&[0, 1, length - 1, length + 1, 40]);
            given.resize(other, 7);
        }
    }
    given
}

/// An entry node for each domain, whether or not hops join them.
fn entry_list(random: &mut Random, question: &Question) -> Vec<u32> {
    let tree = Tree::new(question);
    let mut list: Vec<u32> = tree
        .levels
        .iter()
        .map(|level| match level.is_empty() {
            true => random.bits(),
            false => random.pick(level).address,
        })
        .collect();
    list.push(question.destination);
    list
}

/// A request and calls for first and next in any order.
pub fn with_calls(random: &mut Random, request: RequestCase) -> SeriesCase {
    let length = request
        .question()
        .map_or(4, |question| question.path_length());
    let count = random.between(0, 24);
    let firsts = random.pick(&[1, 1, 2, 6]);
    let mut calls = Vec::new();
    let mut buffers = Vec::new();
    for i in 0..count {
        let opens = i == 0 && random.chance(7, 8);
        let first = opens || random.chance(firsts, 12);
        calls.push(if first { Call::First } else { Call::Next });
        let capacity = random.capacity(length);
        buffers.push(random.words(capacity));
    }
    SeriesCase {
        request,
        calls,
        buffers,
    }
}
