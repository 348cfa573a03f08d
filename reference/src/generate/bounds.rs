//! Bounds around the totals of a request. A total may lie between two floats,
//! and a bound is one, so both beside it are tried.

use super::random::Random;
use super::requests::RequestCase;
use crate::floats::{nearest_bits, Exact};
use crate::tree::Tree;

/// The least total of each round that has a path, whatever the bound.
pub fn least_totals(case: &RequestCase) -> Vec<u32> {
    let Ok(mut question) = case.question() else {
        return Vec::new();
    };
    let first = Tree::new(&question).total();
    let second = question.relax().then(|| Tree::new(&question).total());
    first.into_iter().chain(second.flatten()).collect()
}

/// A bound at, just below or just above the float of either round's least
/// total, beside such a total that is no float, or any other.
pub fn set_bound(random: &mut Random, case: &mut RequestCase) {
    let totals = least_totals(case);
    let least = match totals.is_empty() {
        true => 10,
        false => random.pick(&totals),
    };
    let nearest = nearest_bits(least);
    case.bound_counts = true;
    case.bound_bits = match random.below(12) {
        0..=3 => nearest,
        4..=5 => nearest.saturating_sub(1),
        6 => nearest + 1,
        7 => random.pick(&[0, 1, 0x007F_FFFF, 0x0080_0000, 0x7F7F_FFFF]),
        8 => nearest_bits(random.below(268_435_441) as u32),
        9 => not_below(least),
        10 => below(least),
        _ => random.bits() % 0x7F80_0000,
    };
}

/// A bound that the second round's shortest paths keep and the first's don't,
/// if there is one; of two totals between the same floats there is none.
pub fn bound_between(random: &mut Random, case: &mut RequestCase) {
    let totals = least_totals(case);
    let [first, second] = totals[..] else {
        return set_bound(random, case);
    };
    case.bound_counts = true;
    case.bound_bits = random.pick(&[not_below(second), below(first)]);
}

/// The least bound that a request's shortest paths keep.
pub fn set_just_above(case: &mut RequestCase) {
    if let Some(&total) = least_totals(case).first() {
        (case.bound_counts, case.bound_bits) = (true, not_below(total));
    }
}

fn float_is_below(bits: u32, whole: u32) -> bool {
    Exact::of_float(bits) < Exact::of_whole(whole)
}

/// The least float that isn't below a total.
fn not_below(whole: u32) -> u32 {
    let nearest = nearest_bits(whole);
    nearest + u32::from(float_is_below(nearest, whole))
}

/// The greatest float below a total; 0.0 for a total of 0.
fn below(whole: u32) -> u32 {
    not_below(whole).saturating_sub(1)
}

#[cfg(test)]
mod tests {
    use super::*;

    /// The two floats beside a total, typed by hand.
    #[test]
    fn the_floats_beside_a_total() {
        for (total, lower, upper) in [
            (0, 0, 0),
            (14, 0x415F_FFFF, 0x4160_0000),
            (16_777_216, 0x4B7F_FFFF, 0x4B80_0000),
            (16_777_217, 0x4B80_0000, 0x4B80_0001),
            (16_777_219, 0x4B80_0001, 0x4B80_0002),
            (33_554_431, 0x4BFF_FFFF, 0x4C00_0000),
            (268_435_425, 0x4D7F_FFFE, 0x4D7F_FFFF),
            (268_435_439, 0x4D7F_FFFE, 0x4D7F_FFFF),
            (268_435_440, 0x4D7F_FFFE, 0x4D7F_FFFF),
        ] {
            assert_eq!((below(total), not_below(total)), (lower, upper), "{total}");
        }
    }
}
