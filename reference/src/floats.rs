//! 32-bit floats compared as exact values, in units of 2^-149.
//!
//! In that unit every non-negative finite float is a whole number of at most
//! 277 bits, and a path's total one of at most 177, so both fit 320 bits and
//! no comparison rounds. A total's own float is for telling it alone: it may be
//! rounded, so nothing is compared with it.

/// The first float bits that are not a non-negative finite value.
const OUT_OF_RANGE: u32 = 0x7F80_0000;

/// True for the bits document 01 allows. NaN, infinity and everything with the
/// sign bit, negative zero too, lie above them.
pub fn in_range(bits: u32) -> bool {
    bits < OUT_OF_RANGE
}

/// A whole number of units of 2^-149, the most significant word first, so that
/// the order of the words is the order of the values.
#[derive(Clone, Copy, Debug, PartialEq, Eq, PartialOrd, Ord)]
pub struct Exact([u64; 5]);

impl Exact {
    /// The value of float bits that are in range.
    pub fn of_float(bits: u32) -> Exact {
        let exponent = bits >> 23;
        let fraction = bits & 0x007F_FFFF;
        if exponent == 0 {
            // Zero and the subnormals count units of 2^-149 as they stand.
            Exact::shifted(u64::from(fraction), 0)
        } else {
            Exact::shifted(u64::from(fraction | 0x0080_0000), exponent - 1)
        }
    }

    /// The value of a whole number.
    pub fn of_whole(whole: u32) -> Exact {
        Exact::shifted(u64::from(whole), 149)
    }

    /// `value` times two to the `shift`; the callers stay below 2^320.
    fn shifted(value: u64, shift: u32) -> Exact {
        let mut words = [0u64; 5];
        let lowest = 4 - (shift / 64) as usize;
        let wide = u128::from(value) << (shift % 64);
        words[lowest] = wide as u64;
        if lowest > 0 {
            words[lowest - 1] = (wide >> 64) as u64;
        }
        Exact(words)
    }
}

/// How many bits of a whole number a float keeps.
const KEPT: u32 = 24;

/// The bits of the float nearest to a whole number; of two that are as near, the
/// one whose last bit is 0.
pub fn nearest_bits(whole: u32) -> u32 {
    if whole == 0 {
        return 0;
    }
    let length = u32::BITS - whole.leading_zeros();
    let exponent = 126 + length;
    if length <= KEPT {
        let fraction = (whole << (KEPT - length)) & 0x007F_FFFF;
        return exponent << 23 | fraction;
    }
    let dropped = length - KEPT;
    let (kept, rest) = (whole >> dropped, whole & !(u32::MAX << dropped));
    let half = 1 << (dropped - 1);
    let up = rest > half || rest == half && kept % 2 == 1;
    // Where the fraction is all ones, this carries into the exponent, as the
    // next float has it.
    (exponent << 23 | kept & 0x007F_FFFF) + u32::from(up)
}

#[cfg(test)]
mod tests {
    use super::*;

    /// The greatest total: 16 hops of cost 16,777,215.
    const GREATEST: u32 = 268_435_440;

    /// What lies around each power of two from 2^24 on, where the floats get
    /// sparser.
    fn around_powers() -> impl Iterator<Item = u32> {
        let window = |power: u32| (1 << power) - 5_000..(1 << power) + 5_000;
        (24..=28).flat_map(window).filter(|&t| t <= GREATEST)
    }

    /// The machine's own conversion is exact below 2^24, and above it rounds to
    /// the nearest, ties to even.
    #[test]
    fn every_total_has_its_float() {
        let strided = (1 << 25..GREATEST).step_by(37);
        let greatest = GREATEST - 100..=GREATEST;
        let all = (0..=1 << 25).chain(around_powers()).chain(strided);
        let mut inexact = 0;
        for total in all.chain(greatest) {
            let machine = total as f32;
            assert_eq!(nearest_bits(total), machine.to_bits(), "{total}");
            inexact += u32::from(f64::from(machine) != f64::from(total));
        }
        assert!(inexact > 13_000_000, "{inexact}");
    }

    /// Half the distance of two floats, at most 8, from the total; and no other
    /// float is nearer. All by values of 64 bits, which are whole there.
    #[test]
    fn no_float_is_nearer() {
        let value = |bits: u32| f64::from(f32::from_bits(bits)) as i64;
        let strided = (1 << 24..GREATEST).step_by(1_009);
        let mut farthest = 0;
        for total in around_powers().chain(strided).chain([GREATEST]) {
            let (bits, whole) = (nearest_bits(total), i64::from(total));
            let off = (value(bits) - whole).abs();
            for other in [bits - 1, bits + 1] {
                let away = (value(other) - whole).abs();
                assert!(
                    off < away || off == away && bits % 2 == 0,
                    "{total}: {bits:X}, {other:X}"
                );
            }
            farthest = farthest.max(off);
        }
        assert_eq!(farthest, 8);
    }

    /// Totals halfway between two floats, and beside them, worked out by hand.
    #[test]
    fn ties_go_to_the_even_one() {
        for (total, bits) in [
            (0, 0),
            (1, 0x3F80_0000),
            (14, 0x4160_0000),
            (65_535, 0x477F_FF00),
            (65_536, 0x4780_0000),
            (16_777_215, 0x4B7F_FFFF),
            (16_777_216, 0x4B80_0000),
            (16_777_217, 0x4B80_0000),
            (16_777_218, 0x4B80_0001),
            (16_777_219, 0x4B80_0002),
            (16_777_221, 0x4B80_0002),
            (16_777_223, 0x4B80_0004),
            (33_554_429, 0x4BFF_FFFE),
            (33_554_431, 0x4C00_0000),
            (33_554_433, 0x4C00_0000),
            (33_554_434, 0x4C00_0000),
            (33_554_435, 0x4C00_0001),
            (33_554_438, 0x4C00_0002),
            (67_108_858, 0x4C7F_FFFE),
            (67_108_862, 0x4C80_0000),
            (67_108_868, 0x4C80_0000),
            (67_108_869, 0x4C80_0001),
            (67_108_876, 0x4C80_0002),
            (134_217_716, 0x4CFF_FFFE),
            (134_217_724, 0x4D00_0000),
            (134_217_736, 0x4D00_0000),
            (134_217_737, 0x4D00_0001),
            (134_217_752, 0x4D00_0002),
            (268_435_431, 0x4D7F_FFFE),
            (268_435_432, 0x4D7F_FFFE),
            (268_435_433, 0x4D7F_FFFF),
            (268_435_440, 0x4D7F_FFFF),
        ] {
            assert_eq!(nearest_bits(total), bits, "{total}");
        }
    }

    /// A 64-bit float holds each of these values exactly, so it is a second
    /// way to compare them.
    #[test]
    fn exact_values_compare_like_wider_floats() {
        let mut bits: Vec<u32> = vec![0, 1, 2, 0x007F_FFFF, 0x0080_0000, 0x7F7F_FFFF];
        bits.extend((0..0x7F80_0000).step_by(0x0012_3457));
        let mut totals = vec![0u32, 1, 2, 3, 13, 14, 15, 65_535, 65_536, 1_048_560];
        for power in 24..28 {
            totals.extend((1 << power) - 20..(1 << power) + 20);
        }
        totals.extend(GREATEST - 40..=GREATEST);
        bits.extend(totals.iter().flat_map(|&t| {
            let nearest = nearest_bits(t);
            [nearest.saturating_sub(1), nearest, nearest + 1]
        }));
        for &a in &bits {
            for &t in &totals {
                let wide = f64::from(t) <= f64::from(f32::from_bits(a));
                assert_eq!(
                    Exact::of_whole(t) <= Exact::of_float(a),
                    wide,
                    "{t} and {a:x}"
                );
            }
            for &b in bits.iter().step_by(7) {
                let wide = f64::from(f32::from_bits(a)) >= f64::from(f32::from_bits(b));
                assert_eq!(
                    Exact::of_float(a) >= Exact::of_float(b),
                    wide,
                    "{a:x} and {b:x}"
                );
            }
        }
    }

    /// A bound at the float of a total that was rounded down is below it, and at
    /// one that was rounded up above it; typed by hand.
    #[test]
    fn a_rounded_float_is_not_the_total() {
        for (total, bits, within) in [
            (16_777_217, 0x4B80_0000, false),
            (16_777_217, 0x4B80_0001, true),
            (16_777_219, 0x4B80_0001, false),
            (16_777_219, 0x4B80_0002, true),
            (33_554_434, 0x4C00_0000, false),
            (33_554_438, 0x4C00_0002, true),
            (268_435_432, 0x4D7F_FFFE, false),
            (268_435_432, 0x4D7F_FFFF, true),
            (268_435_439, 0x4D7F_FFFE, false),
            (268_435_439, 0x4D7F_FFFF, true),
            (268_435_440, 0x4D7F_FFFF, true),
        ] {
            let exact = Exact::of_whole(total) <= Exact::of_float(bits);
            assert_eq!(exact, within, "{total} and {bits:X}");
        }
    }

    #[test]
    fn what_is_in_range() {
        for bits in [0, 1, 0x7F7F_FFFF] {
            assert!(in_range(bits));
        }
        for bits in [0x7F80_0000, 0x7FC0_0000, 0x8000_0000, u32::MAX] {
            assert!(!in_range(bits));
        }
    }
}
