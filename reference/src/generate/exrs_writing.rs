//! Sequences with EXRS for the writer: right ones, and each thing that makes
//! their EXRS ones that can't be written.

use super::exrs::{filling, for_route, wrap};
use super::exrs_damage::fault_inside;
use super::random::Random;
use super::shapes;
use super::writing::{lend, of_draft, spoil, WriteCase};

/// The EXRS of each domain, in bytes.
type Each = Vec<Vec<u8>>;

/// A sequence that the writer takes, some as long as a list may be.
pub fn valid(random: &mut Random) -> WriteCase {
    with_each(random).0
}

fn with_each(random: &mut Random) -> (WriteCase, Each) {
    let draft = shapes::valid(random);
    let (mut case, route) = of_draft(random, &draft);
    let pieces = for_route(random, &draft, &route);
    let mut each: Each = pieces.iter().map(|pieces| pieces.concat()).collect();
    case.set_exrs(&each);
    while case.written().is_err() {
        let at = random.below(each.len());
        each[at].clear();
        case.set_exrs(&each);
    }
    if random.chance(1, 8) {
        fill_to(random, &mut case, &mut each, 1_024);
    }
    (case, each)
}

/// More EXRS for one domain, so that the list has just so many bytes, where that
/// can be.
fn fill_to(random: &mut Random, case: &mut WriteCase, each: &mut Each, bytes: usize) {
    let written = case.written().expect("it is written");
    let left = bytes.saturating_sub(written);
    let Some(more) = filling(random, left).filter(|_| each.len() > 1) else {
        return;
    };
    let at = random.between(1, each.len() - 1);
    each[at].extend(more.concat());
    case.set_exrs(each);
}

/// A sequence of any kind.
pub fn any(random: &mut Random) -> WriteCase {
    let (mut case, mut each) = with_each(random);
    match random.below(20) {
        0..=7 => spoil_bytes(random, &mut case, &mut each),
        8..=12 => spoil_counts(random, &mut case),
        13..=14 => spoil(random, &mut case),
        _ => {}
    }
    lend(random, &mut case);
    case
}

/// EXRS that are too many, stand on the first domain, or aren't whole and right.
fn spoil_bytes(random: &mut Random, case: &mut WriteCase, each: &mut Each) {
    let at = random.below(each.len());
    let fine = vec![vec![32, 4, 0x7F, 0xFF]];
    match random.below(10) {
        0..=1 => {
            let bytes = random.pick(&[1_028, 1_028, 1_032, 1_100, 2_000]);
            return fill_to(random, case, each, bytes);
        }
        2 => each[0] = wrap(random, &fine),
        3 => {
            let mut exrs = wrap(random, &fine);
            if fault_inside(random, &mut exrs).is_some() {
                each[at].extend(exrs);
            }
        }
        4 => {
            let mut exrs = wrap(random, &fine);
            exrs[0] = random.pick(&[0xA1, 0, 1, 5, 32, 34, 0xFF]);
            each[at].extend(exrs);
        }
        5 => {
            let mut exrs = wrap(random, &fine);
            exrs[1] = random.pick(&[0, 1, 3, 4, 7, 9, 12, 255]);
            each[at].extend(exrs);
        }
        6 => each[at].extend([33, 4, 0, 0]),
        7 => {
            let more = random.between(1, 12);
            each[at].extend(random.bytes(more));
        }
        8 => {
            each[at].pop();
        }
        _ => {
            if !each[at].is_empty() {
                let byte = random.below(each[at].len());
                each[at][byte] = random.byte();
            }
        }
    }
    case.set_exrs(each);
}

/// Counts that don't fit the domains or the bytes, and some that just do.
fn spoil_counts(random: &mut Random, case: &mut WriteCase) {
    let count = case.exrs_counts.len();
    let [one, other] = [random.below(count), random.below(count)];
    let counts = &mut case.exrs_counts;
    match random.below(8) {
        0 => counts.push(0),
        1 => {
            counts.pop();
        }
        2 => counts[one] = counts[one].wrapping_add(random.pick(&[1, 4, 8, u32::MAX])),
        3 => case.exrs.extend(wrap(random, &[vec![32, 4, 0x7F, 0xFF]])),
        4 => {
            case.exrs.pop();
        }
        // The sum stays, but a domain's bytes end elsewhere.
        5 => {
            let bytes = random.pick(&[1, 4, 8, 12]);
            counts[one] = counts[one].wrapping_add(bytes);
            counts[other] = counts[other].wrapping_sub(bytes);
        }
        // The sum stays, but for what 32 bits don't hold.
        6 => {
            counts[one] = counts[one].wrapping_add(1 << 31);
            counts[other] = counts[other].wrapping_add(1 << 31);
        }
        // All to one domain, which is fine where it isn't the first.
        _ => {
            counts.fill(0);
            counts[one] = case.exrs.len() as u32;
        }
    }
}
