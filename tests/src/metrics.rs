//! The METRICs of a message in three lent buffers.

use crate::compare::Lent;
use reference::generate::Metric;

/// Kinds, flags, float bits.
pub type MetricBuffers = (Lent<u8>, Lent<u8>, Lent<u32>);

/// Buffers of these capacities, filled with what no test here writes.
pub fn buffers([kinds, flags, values]: [usize; 3]) -> MetricBuffers {
    (
        Lent::new(&vec![0xAA; kinds]),
        Lent::new(&vec![0xAA; flags]),
        Lent::new(&vec![0xAAAA_AAAA; values]),
    )
}

/// Nothing but the first `count` METRICs differs from what was there `before`.
pub fn kept_past(after: &MetricBuffers, count: usize, before: &MetricBuffers) -> bool {
    after.0.kept_past(count, &before.0)
        && after.1.kept_past(count, &before.1)
        && after.2.kept_past(count, &before.2)
}

/// The first `count` METRICs.
pub fn gather((kinds, flags, values): &MetricBuffers, count: usize) -> Vec<Metric> {
    let (kinds, flags, values) = (kinds.contents(), flags.contents(), values.contents());
    (0..count)
        .map(|i| (kinds[i], flags[i], values[i]))
        .collect()
}

/// Each way to lend one buffer, and then all, `needed` and a little more or
/// less, the others with room to spare.
pub fn capacities<const N: usize>(needed: usize) -> Vec<[usize; N]> {
    let around = [0, needed.saturating_sub(1), needed, needed + 1];
    let mut all = Vec::new();
    for capacity in around {
        all.push([capacity; N]);
        for short in 0..N {
            let mut one = [needed + 3; N];
            one[short] = capacity;
            all.push(one);
        }
    }
    all
}
