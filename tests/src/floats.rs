//! Floats worked out by division: neither as a program does it nor as the
//! machine does.

/// A total as a number of units, the least power of two for which a float has
/// bits enough, and what is left over.
struct Units {
    unit: u32,
    count: u32,
    left: u32,
    /// The exponent of a float of 2^23 up to 2^24 such units, as its bits have it.
    exponent: u32,
}

impl Units {
    fn of(total: u32) -> Units {
        let (mut unit, mut exponent) = (1, 150);
        while total / unit >= 16_777_216 {
            unit *= 2;
            exponent += 1;
        }
        Units {
            unit,
            count: total / unit,
            left: total % unit,
            exponent,
        }
    }

    /// The bits of the float of so many units. One float more is one bit pattern
    /// more, also for 2^24 units.
    fn float(&self, mut count: u32) -> u32 {
        if count == 0 {
            return 0;
        }
        let mut exponent = self.exponent;
        while count < 8_388_608 {
            count *= 2;
            exponent -= 1;
        }
        exponent * 8_388_608 + (count - 8_388_608)
    }
}

/// The bits of the float nearest to a total; of two that are as near, the one
/// whose last bit is 0.
pub fn nearest(total: u32) -> u32 {
    let units = Units::of(total);
    let twice = 2 * units.left;
    let up = twice > units.unit || twice == units.unit && units.count % 2 == 1;
    units.float(units.count + u32::from(up))
}

/// The greatest float that isn't above a total, and the least that isn't below.
pub fn beside(total: u32) -> [u32; 2] {
    let units = Units::of(total);
    let above = units.count + u32::from(units.left > 0);
    [units.float(units.count), units.float(above)]
}

pub fn is_float(total: u32) -> bool {
    Units::of(total).left == 0
}

/// Whether a total is at most a bound: a float of 64 bits holds both as they are.
pub fn keeps(total: u32, bound_bits: u32) -> bool {
    f64::from(total) <= f64::from(f32::from_bits(bound_bits))
}
