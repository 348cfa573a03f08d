//! METRICs of messages.

/// As many as a message can hold.
const MOST_METRICS: usize = 5_460;

/// A METRIC, its value as the bits of a float.
#[derive(Clone, Copy, Debug, PartialEq, Eq)]
pub struct Metric {
    /// 1 IGP, 2 TE, 3 hop count, or any other.
    pub kind: u8,
    /// B, a bound, is 0x01; C, computed, is 0x02.
    pub flags: u8,
    pub bits: u32,
}

impl Metric {
    /// The type of a METRIC that says a path's total, or a bound on it.
    pub const TE: u8 = 2;
    /// The flag of a bound.
    pub const BOUND: u8 = 0x01;
    /// The flag of a value that was computed.
    pub const COMPUTED: u8 = 0x02;

    pub fn new(kind: u8, flags: u8, value: f32) -> Self {
        let bits = value.to_bits();
        Metric { kind, flags, bits }
    }

    pub fn value(&self) -> f32 {
        f32::from_bits(self.bits)
    }
}

/// METRICs, part by part.
pub(crate) struct Parts {
    pub kinds: Vec<u8>,
    pub flags: Vec<u8>,
    pub values: Vec<u32>,
}

impl Parts {
    /// Room for those of any message.
    pub fn room() -> Self {
        Parts {
            kinds: vec![0; MOST_METRICS],
            flags: vec![0; MOST_METRICS],
            values: vec![0; MOST_METRICS],
        }
    }

    pub fn of(metrics: &[Metric]) -> Self {
        Parts {
            kinds: metrics.iter().map(|metric| metric.kind).collect(),
            flags: metrics.iter().map(|metric| metric.flags).collect(),
            values: metrics.iter().map(|metric| metric.bits).collect(),
        }
    }

    pub fn first(&self, count: u32) -> Vec<Metric> {
        let metric = |i: usize| Metric {
            kind: self.kinds[i],
            flags: self.flags[i],
            bits: self.values[i],
        };
        (0..count as usize).map(metric).collect()
    }
}
