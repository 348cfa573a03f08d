//! Messages and replies with the buffers to lend.

use super::message_damage::{planned, scratched, spoiled_ero};
use super::messages::{any_said, pcrep, pcreq, Metric, PcRepFields, PcReqFields, Said};
use super::random::Random;
use super::requests::{NextCase, RequestCase};
use crate::pcep::Reply;

/// Number and place.
pub type Told = (u32, u32);

/// A PCReq, the request that it carries, and buffers for its METRICs.
#[derive(Clone, Debug)]
pub struct PcReqCase {
    /// With its given list and the buffers for all three calls.
    pub next: NextCase,
    pub message: Vec<u8>,
    /// The fields where the frame is right, or what is told of it; nothing is
    /// known of a message that was scratched.
    pub expected: Option<Result<PcReqFields, Told>>,
    pub kinds: Vec<u8>,
    pub flags: Vec<u8>,
    pub values: Vec<u32>,
}

impl PcReqCase {
    pub fn request(&self) -> &RequestCase {
        &self.next.request
    }
}

/// The bytes and what is known of them: mostly a right frame.
pub fn pcreq_case(random: &mut Random, mut next: NextCase) -> PcReqCase {
    let (draft, fields) = pcreq(random, &mut next.request);
    let metrics = fields.metrics.len();
    let (message, expected) = match random.below(10) {
        0..=2 => {
            let damaged = planned(random, &draft);
            let told = (damaged.number, damaged.place as u32);
            (damaged.bytes, Some(Err(told)))
        }
        3 => (scratched(random, &draft), None),
        _ => (draft.encode(), Some(Ok(fields))),
    };
    let [kinds, flags, values] = metric_capacities(random, metrics);
    PcReqCase {
        next,
        message,
        expected,
        kinds: random.bytes(kinds),
        flags: random.bytes(flags),
        values: random.words(values),
    }
}

/// Around what is needed; sometimes one buffer is short.
fn metric_capacities(random: &mut Random, needed: usize) -> [usize; 3] {
    let common = random.capacity(needed);
    let mut sizes = [common; 3];
    if random.chance(1, 6) {
        sizes[random.below(3)] = random.capacity(needed);
    }
    sizes
}

/// A PCRep with buffers for what it says.
#[derive(Clone, Debug)]
pub struct PcRepCase {
    pub message: Vec<u8>,
    /// What reading it must give with room for all, if that is known.
    pub expected: Option<Result<PcRepFields, Told>>,
    pub addresses: Vec<u32>,
    pub kinds: Vec<u8>,
    pub flags: Vec<u8>,
    pub values: Vec<u32>,
}

pub fn pcrep_case(random: &mut Random) -> PcRepCase {
    let (draft, fields) = pcrep(random);
    let addresses = fields.said.as_ref().map_or(0, Vec::len);
    let metrics = fields.metrics.len();
    let out_of_range = fields.metrics.iter().any(|m| m.2 >= 0x7F80_0000);
    let (message, expected) = match random.below(12) {
        0..=2 => {
            let damaged = planned(random, &draft);
            let told = (damaged.number, damaged.place as u32);
            (damaged.bytes, Some(Err(told)))
        }
        3 => (scratched(random, &draft), None),
        4..=5 => {
            let damaged = spoiled_ero(random, &fields, &draft);
            let told = match out_of_range {
                true => (21, 1),
                false => (damaged.number, damaged.place as u32),
            };
            (damaged.bytes, Some(Err(told)))
        }
        _ if out_of_range => (draft.encode(), Some(Err((21, 1)))),
        _ => (draft.encode(), Some(Ok(fields))),
    };
    let room = random.capacity(addresses);
    let [kinds, flags, values] = metric_capacities(random, metrics);
    PcRepCase {
        message,
        expected,
        addresses: random.words(room),
        kinds: random.bytes(kinds),
        flags: random.bytes(flags),
        values: random.words(values),
    }
}

/// What `write_pcrep` takes, with the buffer to lend.
#[derive(Clone, Debug)]
pub struct ReplyCase {
    pub request_id: u32,
    /// Any bits; those that are assigned are written.
    pub rp_flags: u32,
    pub found: bool,
    pub addresses: Vec<u32>,
    pub nature: u8,
    pub c_flag: bool,
    pub kinds: Vec<u8>,
    pub flags: Vec<u8>,
    pub values: Vec<u32>,
    pub out: Vec<u8>,
}

impl ReplyCase {
    pub fn reply(&self) -> Reply<'_> {
        Reply {
            request_id: self.request_id,
            rp_flags: self.rp_flags,
            found: self.found,
            addresses: &self.addresses,
            nature: self.nature,
            c_flag: self.c_flag,
            kinds: &self.kinds,
            flags: &self.flags,
            values: &self.values,
        }
    }

    /// What the written message says. The METRICs' parts are as many.
    pub fn fields(&self) -> PcRepFields {
        let said: Said = match self.found {
            true => Ok(self.addresses.clone()),
            false => Err((self.nature, self.c_flag)),
        };
        let metric = |i: usize| -> Metric { (self.kinds[i], self.flags[i], self.values[i]) };
        PcRepFields {
            request_id: self.request_id,
            rp_flags: self.rp_flags & 0x3F,
            said,
            metrics: (0..self.values.len()).map(metric).collect(),
        }
    }
}

/// Fields that can be written; the buffer has room for any of them.
pub fn valid_reply(random: &mut Random) -> ReplyCase {
    let said = any_said(random);
    let (nature, c_flag) = said.as_ref().err().copied().unwrap_or((
        // Not looked at beside a path.
        random.byte(),
        random.chance(1, 2),
    ));
    let found = said.is_ok();
    let ignored = random.pick(&[0, 0, 3, 9_000]);
    let addresses = said.unwrap_or_else(|_| vec![7; ignored]);
    let metrics = random.pick(&[0, 1, 1, 2, 7]);
    let values = random.words(metrics);
    ReplyCase {
        request_id: random.bits(),
        rp_flags: random.pick(&[0, 0x3F, random.clone().bits()]),
        found,
        addresses,
        nature,
        c_flag,
        kinds: random.bytes(metrics),
        flags: random.bytes(metrics),
        values: values.iter().map(|bits| bits % 0x7F80_0000).collect(),
        out: random.bytes(68_000),
    }
}

/// Fields of any kind, refused ones included.
pub fn any_reply(random: &mut Random) -> ReplyCase {
    let mut case = valid_reply(random);
    match random.below(14) {
        0 => case.kinds.push(1),
        1 => case.flags.push(1),
        2 => _ = case.values.pop(),
        3 => too_long(random, &mut case),
        4..=5 if !case.values.is_empty() => {
            let at = random.below(case.values.len());
            case.values[at] = random.pick(&super::damage::OUT_OF_RANGE);
        }
        _ => {}
    }
    let said = match case.found {
        true => 4 + 8 * case.addresses.len(),
        false => 8,
    };
    let capacity = random.capacity(16 + said + 12 * case.values.len());
    case.out = random.bytes(capacity);
    case
}

/// Around the longest that can be written, sometimes by METRICs.
fn too_long(random: &mut Random, case: &mut ReplyCase) {
    let metrics = random.pick(&[0, 0, 1, 2, 3, 1_000, 5_459, 5_460]);
    case.kinds = random.bytes(metrics);
    case.flags = random.bytes(metrics);
    case.values = vec![0x4160_0000; metrics];
    let left = (65_535usize - 20).saturating_sub(12 * metrics);
    let addresses = left / 8 + random.below(3);
    case.addresses = random.words(addresses);
    case.found = random.chance(5, 6);
}
