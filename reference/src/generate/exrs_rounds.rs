//! Requests whose EXRS decide between the rounds: they hit the entry nodes of
//! the shortest paths, the domain, or what another stretch has, with X set and
//! clear; the exclude list and the bound take part.

use super::bounds::{bound_between, set_bound};
use super::damage::{planned as damaged, OUT_OF_RANGE};
use super::draft::Draft;
use super::exrs::{domain_piece, entry_piece, with_x, wrap};
use super::list_plan::planned_with_exrs;
use super::lists::{address_piece, exclude_pieces, lacked, Include, Piece};
use super::random::Random;
use super::requests::{lend, out_of_range_ingress, RequestCase};
use super::rounds::{mostly_with_paths, shortest};
use crate::check::check;
use crate::sequence::Stop;
use crate::writer;

/// More exclusions than this aren't needed to rule the cheapest paths out.
const MOST_ON_PATHS: usize = 8;

/// The exclusions inside the EXRS of each domain of a sequence.
type Inside = Vec<Vec<Piece>>;

/// The sequence of an accepted request.
struct Sequence {
    route: Vec<usize>,
    entries: Vec<Option<u32>>,
}

/// An accepted request with EXRS, mostly on a small profile.
pub fn any(random: &mut Random) -> RequestCase {
    let mut case = decided(random).1;
    lend(random, &mut case);
    case
}

/// A request of any kind, refused ones included.
pub fn any_or_refused(random: &mut Random) -> RequestCase {
    let (draft, mut case) = decided(random);
    match random.below(24) {
        0 => case.profile = damaged(random).bytes,
        1 => case.ingress = out_of_range_ingress(random, &draft),
        2 => case.bandwidth_bits = random.pick(&OUT_OF_RANGE),
        3..=7 => {
            let list = planned_with_exrs(random);
            case.profile = list.profile;
            case.ingress = list.ingress;
            case.include = list.include;
        }
        8..=9 => {
            let at = random.below(case.include.len());
            case.include[at] = random.byte();
        }
        10 => {
            // Type 33 is none of an exclude list's.
            let exrs = wrap(random, &[vec![32, 4, 0, 9]]);
            case.exclude.extend(exrs);
        }
        _ => {}
    }
    lend(random, &mut case);
    case
}

fn decided(random: &mut Random) -> (Draft, RequestCase) {
    let (draft, mut case, sequence) = with_a_stretch(random);
    decide(random, &draft, &mut case, &sequence);
    (draft, case)
}

/// A request without exclusions that crosses two domains or more.
fn with_a_stretch(random: &mut Random) -> (Draft, RequestCase, Sequence) {
    loop {
        let (draft, case) = mostly_with_paths(random);
        let Ok(question) = case.question() else {
            continue;
        };
        let stops = &question.stops;
        if stops.len() > 1 {
            let sequence = Sequence {
                route: stops.iter().map(|stop| stop.domain).collect(),
                entries: stops.iter().map(|stop| stop.entry).collect(),
            };
            return (draft, case, sequence);
        }
    }
}

/// Gives the request EXRS, sometimes an exclude list, and sometimes a bound.
fn decide(random: &mut Random, draft: &Draft, case: &mut RequestCase, sequence: &Sequence) {
    let count = sequence.route.len();
    let mut hits = match random.below(8) {
        0..=3 => off_the_cheapest(random, case, sequence),
        4..=5 => on_every_path(random, draft, sequence),
        _ => vec![Vec::new(); count],
    };
    let mut misses: Inside = vec![Vec::new(); count];
    let others = random.pick(&[0, 1, 1, 2, 4]);
    for _ in 0..others {
        let at = random.between(1, count - 1);
        misses[at].push(elsewhere(random, draft, case, sequence, at));
    }
    if hits.concat().is_empty() && misses.concat().is_empty() {
        let at = random.between(1, count - 1);
        misses[at].push(lacked(random, draft));
    }
    mark(random, &mut hits, &mut misses);
    let inside = hits.into_iter().zip(misses).map(|(a, b)| [a, b].concat());
    case.include = spelled(random, draft, sequence, inside.collect());
    case.exclude = beside(random, draft);
    match random.below(8) {
        0 => set_bound(random, case),
        1..=2 => bound_between(random, case),
        _ => {}
    }
}

/// The list with these exclusions in EXRS, X as it is, in the plainest way.
fn plainly(case: &RequestCase, sequence: &Sequence, inside: &Inside) -> Vec<u8> {
    let whole = |pieces: &Vec<Piece>| match pieces.is_empty() {
        true => Vec::new(),
        false => [
            &[33, 4 + pieces.concat().len() as u8, 0, 0],
            &pieces.concat()[..],
        ]
        .concat(),
    };
    let exrs: Vec<Vec<u8>> = inside.iter().map(whole).collect();
    let stops: Vec<Stop> = (0..exrs.len())
        .map(|i| Stop {
            domain: sequence.route[i],
            entry: sequence.entries[i],
            exrs: Some(&exrs[i][..])
                .filter(|e| !e.is_empty())
                .into_iter()
                .collect(),
        })
        .collect();
    let profile = check(&case.profile).expect("it is accepted");
    writer::write(&profile, &stops).expect("few EXRS fit")
}

/// Entry nodes of the shortest paths, each on its own stretch, until what is left
/// costs more or nothing is.
fn off_the_cheapest(random: &mut Random, case: &RequestCase, sequence: &Sequence) -> Inside {
    let mut inside: Inside = vec![Vec::new(); sequence.route.len()];
    let mut left = case.clone();
    let cheapest = shortest(case).and_then(|paths| paths.total());
    for _ in 0..MOST_ON_PATHS {
        let found = shortest(&left).filter(|paths| paths.total() == cheapest);
        let Some(path) = found.and_then(|paths| paths.first()) else {
            break;
        };
        let at = random.between(1, sequence.route.len() - 1);
        inside[at].push(address_piece(path[at], 32, 1));
        left.include = plainly(case, sequence, &inside);
    }
    inside
}

/// What no path can do without: a domain, or all its entry nodes.
fn on_every_path(random: &mut Random, draft: &Draft, sequence: &Sequence) -> Inside {
    let mut inside: Inside = vec![Vec::new(); sequence.route.len()];
    let at = random.between(1, sequence.route.len() - 1);
    inside[at].push(match random.chance(1, 4) {
        true => address_piece(random.bits(), 0, 1),
        false => domain_piece(random, draft, sequence.route[at]),
    });
    inside
}

/// What stands outside the stretch up to the domain `at`, and so isn't hit: an
/// end of the path, another domain, another domain's entry node, or nothing.
fn elsewhere(
    random: &mut Random,
    draft: &Draft,
    case: &RequestCase,
    sequence: &Sequence,
    at: usize,
) -> Piece {
    let route = &sequence.route;
    let other = (at + random.between(1, route.len() - 1)) % route.len();
    match random.below(6) {
        0 => address_piece(random.pick(&[case.source, case.destination]), 32, 1),
        1 => domain_piece(random, draft, route[other]),
        2..=3 if other > 0 => entry_piece(random, draft, route[other - 1], route[other]),
        _ => lacked(random, draft),
    }
}

/// X set in all, none, or some.
fn mark(random: &mut Random, hits: &mut Inside, misses: &mut Inside) {
    let way = random.below(8);
    for (is_hit, lists) in [(true, hits), (false, misses)] {
        for piece in lists.iter_mut().flatten() {
            let desired = match way {
                0..=1 => false,
                2..=3 => true,
                4..=5 => random.chance(1, 2),
                // Those that matter are demanded, the others desired.
                _ => !is_hit,
            };
            *piece = with_x(piece.clone(), desired);
        }
    }
}

/// The include list with these exclusions in one EXRS or several for each domain,
/// spelled in any way; of too many some are left out.
fn spelled(random: &mut Random, draft: &Draft, sequence: &Sequence, mut inside: Inside) -> Vec<u8> {
    let Sequence { route, entries } = sequence;
    loop {
        let mut exrs = Vec::new();
        for pieces in &inside {
            let size = random.pick(&[1, 2, 8]);
            let each = pieces.chunks(size).map(|some| wrap(random, some));
            exrs.push(each.collect());
        }
        let mut include = Include::new(draft, route[0]);
        include.spell(random, route, entries, &exrs);
        let list = include.pieces.concat();
        if list.len() <= 1_024 {
            return list;
        }
        inside.iter_mut().for_each(|pieces| pieces.truncate(1));
        let at = random.below(inside.len());
        inside[at].clear();
    }
}

/// An exclude list: mostly none, or one without X set, so that an X inside an
/// EXRS is the only one.
fn beside(random: &mut Random, draft: &Draft) -> Vec<u8> {
    let mut pieces = match random.below(6) {
        0 => exclude_pieces(random, draft, 2),
        1 => vec![lacked(random, draft)],
        _ => Vec::new(),
    };
    let desired = random.chance(1, 4);
    for piece in &mut pieces {
        *piece = with_x(piece.clone(), desired);
    }
    pieces.concat()
}
