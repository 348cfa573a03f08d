//! Exclude lists and bounds that decide between the rounds: first rounds that
//! have a path, that exclusions leave without one, and that the bound does; and
//! second rounds with and without paths.

use super::bounds::{bound_between, least_totals, set_bound};
use super::draft::Draft;
use super::exrs::domain_piece;
use super::lists::{address_piece, exclude_pieces, lacked, Piece};
use super::random::Random;
use super::requests::{along_a_route, lend, RequestCase};
use super::shapes;
use crate::paths::ShortestPaths;

/// More exclusions than this aren't needed to rule the cheapest paths out.
const MOST_ON_PATHS: usize = 8;

/// An accepted request, mostly on a small profile.
pub fn any(random: &mut Random) -> RequestCase {
    let (draft, mut case) = mostly_with_paths(random);
    decide(random, &draft, &mut case);
    lend(random, &mut case);
    case
}

/// One of a few requests without exclusions: mostly one that has paths, and
/// paths that cost something, so that others may cost more.
pub fn mostly_with_paths(random: &mut Random) -> (Draft, RequestCase) {
    let mut tries = random.pick(&[1, 10, 10, 10]);
    loop {
        let draft = match random.chance(1, 10) {
            true => shapes::valid(random),
            false => shapes::small(random),
        };
        let case = along_a_route(random, &draft);
        tries -= 1;
        if tries == 0 || least_totals(&case).iter().any(|&total| total > 0) {
            return (draft, case);
        }
    }
}

/// Gives an accepted request an exclude list and mostly a bound.
pub fn decide(random: &mut Random, draft: &Draft, case: &mut RequestCase) {
    let hits = match random.below(8) {
        0..=4 => off_the_cheapest(random, case),
        5 => vec![on_every_path(random, draft, case)],
        6 => exclude_pieces(random, draft, 6),
        _ => Vec::new(),
    };
    let others = random.pick(&[0, 1, 1, 3]);
    let misses = (0..others).map(|_| lacked(random, draft)).collect();
    case.exclude = mixed(random, hits, misses).concat();
    match random.below(6) {
        0..=1 => set_bound(random, case),
        2..=3 => bound_between(random, case),
        _ => {}
    }
}

/// Nodes of the shortest paths, until what is left costs more or nothing is.
fn off_the_cheapest(random: &mut Random, case: &RequestCase) -> Vec<Piece> {
    let mut left = case.clone();
    let mut pieces: Vec<Piece> = Vec::new();
    let cheapest = shortest(case).and_then(|paths| paths.total());
    while pieces.len() < MOST_ON_PATHS {
        let found = shortest(&left).filter(|paths| paths.total() == cheapest);
        let Some(path) = found.and_then(|paths| paths.first()) else {
            break;
        };
        pieces.push(one_node(random, &mut left, &path));
    }
    pieces
}

/// A node of a path, added to what is excluded: mostly an entry node without
/// which there still is a path, if there is such a one.
fn one_node(random: &mut Random, left: &mut RequestCase, path: &[u32]) -> Piece {
    let exclude = left.exclude.clone();
    let mut entries = path[1..path.len() - 1].to_vec();
    let mut piece = Vec::new();
    if entries.is_empty() || random.chance(1, 20) {
        entries = vec![path[0], path[path.len() - 1]];
    }
    for index in shapes::shuffled(random, entries.len()) {
        piece = address_piece(entries[index], 32, 1);
        left.exclude = [&exclude[..], &piece].concat();
        let still = shortest(left).is_some_and(|paths| paths.total().is_some());
        if still || random.chance(1, 4) {
            break;
        }
    }
    piece
}

pub fn shortest(case: &RequestCase) -> Option<ShortestPaths> {
    case.question().ok().map(ShortestPaths::new)
}

/// What no path of the request can do without: an end, or a domain to cross.
fn on_every_path(random: &mut Random, draft: &Draft, case: &RequestCase) -> Piece {
    let stops = case.question().map_or(Vec::new(), |q| q.stops);
    let end = random.pick(&[case.source, case.destination]);
    if stops.is_empty() || random.chance(1, 3) {
        let prefix = random.pick(&[32, 32, 31, 8, 0]);
        return address_piece(end, prefix, 1);
    }
    let at = random.below(stops.len());
    domain_piece(random, draft, stops[at].domain)
}

/// All of them in any order, with X set in all, none, or some.
fn mixed(random: &mut Random, hits: Vec<Piece>, misses: Vec<Piece>) -> Vec<Piece> {
    let hit_count = hits.len();
    let mut pieces = [hits, misses].concat();
    let count = pieces.len();
    let way = random.below(7);
    let one = random.below(count.max(1));
    for (index, piece) in pieces.iter_mut().enumerate() {
        let desired = match way {
            0 => false,
            1..=3 => true,
            4 => random.chance(1, 2),
            // Those that matter are demanded, the others desired.
            5 => index >= hit_count,
            _ => index == one,
        };
        piece[0] = (piece[0] & 0x7F) | (u8::from(desired) << 7);
    }
    let order = shapes::shuffled(random, count);
    order.iter().map(|&index| pieces[index].clone()).collect()
}
