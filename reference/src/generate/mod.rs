//! Cases made from a seed: the same seed always makes the same case. Every
//! case brings its own buffers, filled with anything, so that two programs
//! can be given equal arguments and compared on everything they leave.

mod bounds;
mod damage;
mod draft;
mod exrs;
mod exrs_damage;
mod exrs_rounds;
mod exrs_writing;
mod large;
mod list_damage;
mod list_plan;
mod lists;
mod message_cases;
mod message_damage;
mod messages;
mod random;
mod requests;
mod rounds;
mod shapes;
mod wide;
mod writing;

pub use damage::Planned;
pub use large::EQUAL_PATHS_WIDTHS;
pub use list_plan::{PlannedInclude, Reading};
pub use message_cases::{PcRepCase, PcReqCase, ReplyCase, Told};
pub use messages::{Metric, PcRepFields, PcReqFields, Said};
pub use random::Random;
pub use requests::{NextCase, RequestCase, SeriesCase};
pub use writing::WriteCase;

use crate::sequence::Stop;
use lists::Include;

/// What `read_include` takes, with the buffers to lend.
#[derive(Clone, Debug)]
pub struct IncludeCase {
    pub profile: Vec<u8>,
    pub ingress: u16,
    pub include: Vec<u8>,
    pub domains: Vec<u16>,
    pub pinned: Vec<u8>,
    pub pins: Vec<u32>,
    pub exrs_counts: Vec<u32>,
    pub exrs: Vec<u8>,
}

impl IncludeCase {
    fn without_buffers(profile: Vec<u8>, ingress: u16, include: Vec<u8>) -> IncludeCase {
        IncludeCase {
            profile,
            ingress,
            include,
            domains: Vec::new(),
            pinned: Vec::new(),
            pins: Vec::new(),
            exrs_counts: Vec::new(),
            exrs: Vec::new(),
        }
    }
}

/// A profile for `check_profile`: valid, with one thing wrong, with more, or
/// no profile at all.
pub fn profile_case(seed: u64) -> Vec<u8> {
    let random = &mut Random::new(seed, 1);
    match random.below(20) {
        0..=5 => shapes::valid(random).encode(),
        6..=15 => damage::planned(random).bytes,
        16 => {
            let length = random.pick(&[0, 11, 12, 13, 200, 61_292, 70_000]);
            random.bytes(length)
        }
        _ => scratched(random),
    }
}

/// One to three bytes changed anywhere, perhaps on top of other damage.
fn scratched(random: &mut Random) -> Vec<u8> {
    let mut bytes = match random.chance(2, 3) {
        true => shapes::valid(random).encode(),
        false => damage::planned(random).bytes,
    };
    for _ in 0..random.between(1, 3) {
        if !bytes.is_empty() {
            let at = random.below(bytes.len());
            bytes[at] = random.byte();
        }
    }
    bytes
}

/// A valid profile of any shape.
pub fn valid_profile(seed: u64) -> Vec<u8> {
    shapes::valid(&mut Random::new(seed, 2)).encode()
}

/// A profile with exactly one thing wrong and the answer that belongs to it.
pub fn damaged_profile(seed: u64) -> Planned {
    damage::planned(&mut Random::new(seed, 3))
}

/// An include list to be read on its own.
pub fn include_case(seed: u64) -> IncludeCase {
    let random = &mut Random::new(seed, 4);
    let draft = shapes::valid(random);
    let ingress = random.below(draft.domains.len());
    let include = list_damage::include_list(random, &mut Include::new(&draft, ingress), ingress);
    let mut case = IncludeCase::without_buffers(draft.encode(), ingress as u16, include);
    match random.below(12) {
        0..=1 => case.profile = damage::planned(random).bytes,
        2 => case.ingress = requests::out_of_range_ingress(random, &draft),
        _ => {}
    }
    lend_include(random, &mut case);
    case
}

/// The same for a list with EXRS, some with anything wrong in it.
pub fn exrs_include_case(seed: u64) -> IncludeCase {
    let random = &mut Random::new(seed, 21);
    let planned = list_plan::planned_with_exrs(random);
    let mut case = IncludeCase::without_buffers(planned.profile, planned.ingress, planned.include);
    match random.below(16) {
        0 => case.profile = damage::planned(random).bytes,
        1 => case.ingress = random.pick(&[64, 255, u16::MAX]),
        2..=6 if !case.include.is_empty() => {
            for _ in 0..random.between(1, 3) {
                let at = random.below(case.include.len());
                let any = random.byte();
                case.include[at] = random.pick(&[0, 1, 4, 7, 8, 32, 33, 0xA1, any]);
            }
        }
        _ => {}
    }
    lend_include(random, &mut case);
    case
}

/// An include list on a valid profile, with what reading it must give.
pub fn planned_include(seed: u64) -> PlannedInclude {
    list_plan::planned(&mut Random::new(seed, 13))
}

/// An include list with EXRS on a valid profile, with what reading it must give.
pub fn planned_exrs_include(seed: u64) -> PlannedInclude {
    list_plan::planned_with_exrs(&mut Random::new(seed, 22))
}

/// Buffers around the size that is needed; sometimes one is short.
fn lend_include(random: &mut Random, case: &mut IncludeCase) {
    let read = crate::request::accept_include(&case.profile, case.ingress, &case.include);
    let (needed, bytes) = read.map_or((16, 40), |stops| {
        let bytes = stops.iter().map(Stop::exrs_bytes).sum();
        (stops.len(), bytes)
    });
    let common = random.capacity(needed);
    let mut sizes = [common; 4];
    if random.chance(1, 6) {
        sizes[random.below(4)] = random.capacity(needed);
    }
    case.domains = random.words(sizes[0]).iter().map(|&w| w as u16).collect();
    case.pinned = random.bytes(sizes[1]);
    case.pins = random.words(sizes[2]);
    case.exrs_counts = random.words(sizes[3]);
    let capacity = random.capacity(bytes);
    case.exrs = random.bytes(capacity);
}

/// A sequence for `write_list`, refused ones included.
pub fn write_case(seed: u64) -> WriteCase {
    writing::any(&mut Random::new(seed, 5))
}

/// A sequence that `write_list` takes, with room for any.
pub fn valid_write_case(seed: u64) -> WriteCase {
    writing::valid(&mut Random::new(seed, 6))
}

/// A sequence with EXRS for `write_list`, refused ones included.
pub fn exrs_write_case(seed: u64) -> WriteCase {
    exrs_writing::any(&mut Random::new(seed, 23))
}

/// A sequence with EXRS that `write_list` takes, with room for any.
pub fn valid_exrs_write_case(seed: u64) -> WriteCase {
    exrs_writing::valid(&mut Random::new(seed, 24))
}

/// A request for `tree` and `first`, refused ones included.
pub fn request_case(seed: u64) -> RequestCase {
    requests::any(&mut Random::new(seed, 7))
}

/// A request that is accepted, on a profile small enough to list every path.
pub fn small_request_case(seed: u64) -> RequestCase {
    requests::small(&mut Random::new(seed, 8))
}

/// A request and a given list for `next`, refused ones included.
pub fn next_case(seed: u64) -> NextCase {
    let random = &mut Random::new(seed, 9);
    let request = requests::any(random);
    requests::with_given(random, request)
}

/// A given list for a request that is small enough to list every path.
pub fn small_next_case(seed: u64) -> NextCase {
    let random = &mut Random::new(seed, 10);
    let request = requests::small(random);
    requests::with_given(random, request)
}

/// An accepted request whose exclusions and bound decide between the rounds,
/// and a given list for it.
pub fn round_case(seed: u64) -> NextCase {
    let random = &mut Random::new(seed, 14);
    let request = rounds::any(random);
    requests::with_given(random, request)
}

/// An accepted request whose EXRS decide between the rounds, and a given list
/// for it.
pub fn exrs_round_case(seed: u64) -> NextCase {
    let random = &mut Random::new(seed, 25);
    let request = exrs_rounds::any(random);
    requests::with_given(random, request)
}

/// A request with EXRS and a given list, refused ones included.
pub fn exrs_next_case(seed: u64) -> NextCase {
    let random = &mut Random::new(seed, 26);
    let request = exrs_rounds::any_or_refused(random);
    requests::with_given(random, request)
}

/// A series of calls on a request with EXRS, sometimes a refused one.
pub fn exrs_series_case(seed: u64) -> SeriesCase {
    let random = &mut Random::new(seed, 27);
    let request = exrs_rounds::any_or_refused(random);
    requests::with_calls(random, request)
}

/// A PCReq of any kind whose IRO has EXRS.
pub fn exrs_pcreq_case(seed: u64) -> PcReqCase {
    let random = &mut Random::new(seed, 28);
    let request = exrs_rounds::any_or_refused(random);
    let next = requests::with_given(random, request);
    message_cases::pcreq_case(random, next)
}

/// An accepted request with wide costs, and a given list for it.
pub fn wide_case(seed: u64) -> NextCase {
    let random = &mut Random::new(seed, 20);
    let request = wide::any(random);
    requests::with_given(random, request)
}

/// A series of calls on one request, sometimes a refused one.
pub fn series_case(seed: u64) -> SeriesCase {
    let random = &mut Random::new(seed, 11);
    let request = match random.chance(1, 2) {
        true => requests::any(random),
        false => requests::small(random),
    };
    requests::with_calls(random, request)
}

/// 64 domains, 3,000 hops, 61,292 bytes.
pub fn largest_profile(seed: u64) -> Vec<u8> {
    large::largest(&mut Random::new(seed, 12)).encode()
}

/// The request that crosses 16 domains of `largest_profile(seed)`.
pub fn largest_request(seed: u64) -> RequestCase {
    large::crossing_request(&large::largest(&mut Random::new(seed, 12)))
}

/// The same with 15 EXRS, which fill the include list up to its 1,024 bytes, in
/// one round or in two.
pub fn largest_exrs_request(seed: u64, rounds: u32) -> RequestCase {
    large::with_exrs(&large::largest(&mut Random::new(seed, 12)), rounds)
}

/// The same with costs up to the limit, and a bound right above the least total,
/// which is no float.
pub fn largest_wide_request(seed: u64) -> RequestCase {
    let mut draft = large::largest(&mut Random::new(seed, 12));
    large::raise(&mut draft);
    let mut case = large::crossing_request(&draft);
    bounds::set_just_above(&mut case);
    case
}

/// As many equal shortest paths as the limits allow, a little above 2^58.
pub fn equal_paths_profile() -> Vec<u8> {
    large::equal_paths().encode()
}

/// The request that has them all.
pub fn equal_paths_request() -> RequestCase {
    large::crossing_request(&large::equal_paths())
}

/// A PCReq of any kind that carries a request of any kind.
pub fn pcreq_case(seed: u64) -> PcReqCase {
    let random = &mut Random::new(seed, 15);
    let request = requests::any(random);
    let next = requests::with_given(random, request);
    message_cases::pcreq_case(random, next)
}

/// A whole PCReq of any shape that carries a request of whole words, and that
/// request as its METRICs leave it.
pub fn carrying(seed: u64, request: &RequestCase) -> (Vec<u8>, RequestCase) {
    let mut carried = request.clone();
    let (draft, _) = messages::pcreq(&mut Random::new(seed, 19), &mut carried);
    (draft.encode(), carried)
}

/// A PCRep of any kind.
pub fn pcrep_case(seed: u64) -> PcRepCase {
    message_cases::pcrep_case(&mut Random::new(seed, 16))
}

/// Fields for `write_pcrep`, refused ones included.
pub fn reply_case(seed: u64) -> ReplyCase {
    message_cases::any_reply(&mut Random::new(seed, 17))
}

/// Fields that `write_pcrep` takes, with room for any.
pub fn valid_reply_case(seed: u64) -> ReplyCase {
    message_cases::valid_reply(&mut Random::new(seed, 18))
}
