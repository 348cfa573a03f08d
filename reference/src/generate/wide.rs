//! Requests with wide costs, whose totals mostly are no floats: costs that are
//! close together, so that totals are equal or differ by little, and costs that
//! are far apart; near the limit and below it.

use super::bounds::{least_totals, set_bound};
use super::draft::Draft;
use super::random::Random;
use super::requests::{along_a_route, lend, RequestCase};
use super::{rounds, shapes};

/// One more than the greatest cost.
const LIMIT: usize = 1 << 24;

/// An accepted request, mostly on a small profile; most have a bound, and half
/// exclusions that decide between the rounds.
pub fn any(random: &mut Random) -> RequestCase {
    let (draft, mut case) = mostly_above_the_floats(random);
    match random.below(6) {
        0..=2 => rounds::decide(random, &draft, &mut case),
        3..=4 => set_bound(random, &mut case),
        _ => {}
    }
    lend(random, &mut case);
    case
}

/// One of a few requests: mostly one with a total that needs more bits than a
/// float has.
fn mostly_above_the_floats(random: &mut Random) -> (Draft, RequestCase) {
    let mut tries = random.pick(&[1, 6, 12, 12]);
    loop {
        let mut draft = match random.chance(1, 12) {
            true => shapes::valid(random),
            false => shapes::small(random),
        };
        widen(random, &mut draft);
        let case = along_a_route(random, &draft);
        tries -= 1;
        let above = |&total: &u32| total as usize > LIMIT;
        if tries == 0 || least_totals(&case).iter().any(above) {
            return (draft, case);
        }
    }
}

/// Other costs for all hops: any of so many from a low one on.
fn widen(random: &mut Random, draft: &mut Draft) {
    let spread = random.pick(&[1, 2, 2, 3, 3, 5, 9, 1_000, 1 << 16, LIMIT]);
    let low = match random.below(3) {
        0 => LIMIT - spread,
        1 => (LIMIT / 2).min(LIMIT - spread),
        _ => random.below(LIMIT - spread + 1),
    };
    for record in &mut draft.hops {
        let cost = (low + random.below(spread)) as u32;
        record[12..16].copy_from_slice(&cost.to_be_bytes());
    }
}
