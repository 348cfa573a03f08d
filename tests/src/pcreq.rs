//! A PCReq: the C calls, and one of them made by both programs.

use crate::by_hand::messages::{bandwidth, end_points, iro, message, metric, rp, xro, B, PCREQ};
use crate::compare::{compare, Answer, Case, Lent};
use crate::metrics::{self, gather, MetricBuffers};
use crate::{paths, tree};
use reference::generate::{NextCase, PcReqFields, RequestCase, Told};
use reference::{PcReq, Request};
use std::fmt::Display;

extern "C" {
    fn yq_read_pcreq(
        message: *const u8,
        message_count: usize,
        kinds: *mut u8,
        kinds_count: usize,
        flags: *mut u8,
        flags_count: usize,
        values: *mut u32,
        values_count: usize,
        numbers: *mut u32,
    ) -> u32;

    fn yq_pcreq_tree(
        profile: *const u8,
        profile_count: usize,
        ingress: u16,
        message: *const u8,
        message_count: usize,
        level: *mut u32,
        level_count: usize,
        address: *mut u32,
        address_count: usize,
        reachable: *mut u8,
        reachable_count: usize,
        cost: *mut u32,
        cost_count: usize,
        numbers: *mut u32,
    ) -> u32;

    fn yq_pcreq_first(
        profile: *const u8,
        profile_count: usize,
        ingress: u16,
        message: *const u8,
        message_count: usize,
        path: *mut u32,
        path_count: usize,
        numbers: *mut u32,
    ) -> u32;

    fn yq_pcreq_next(
        profile: *const u8,
        profile_count: usize,
        ingress: u16,
        message: *const u8,
        message_count: usize,
        given: *const u32,
        given_count: usize,
        path: *mut u32,
        path_count: usize,
        numbers: *mut u32,
    ) -> u32;
}

/// Reads a PCReq. `numbers`: place, request-ID, RP flags, source, destination,
/// bandwidth bits, how many METRICs, then offset and length in the message of
/// the include and of the exclude list.
pub fn read_pcreq(
    message: &[u8],
    kinds: &mut [u8],
    flags: &mut [u8],
    values: &mut [u32],
    numbers: &mut [u32; 11],
) -> u32 {
    // SAFETY: the call reads the message and writes no further than the three
    // buffers and the array's eleven numbers.
    unsafe {
        yq_read_pcreq(
            message.as_ptr(),
            message.len(),
            kinds.as_mut_ptr(),
            kinds.len(),
            flags.as_mut_ptr(),
            flags.len(),
            values.as_mut_ptr(),
            values.len(),
            numbers.as_mut_ptr(),
        )
    }
}

/// The tree of the request that a PCReq carries. `numbers` as for `tree`.
pub fn pcreq_tree(
    asked: &PcReq,
    level: &mut [u32],
    address: &mut [u32],
    reachable: &mut [u8],
    cost: &mut [u32],
    numbers: &mut [u32; 4],
) -> u32 {
    // SAFETY: the call reads profile and message and writes no further than
    // the four buffers and the array's four numbers.
    unsafe {
        yq_pcreq_tree(
            asked.profile.as_ptr(),
            asked.profile.len(),
            asked.ingress,
            asked.message.as_ptr(),
            asked.message.len(),
            level.as_mut_ptr(),
            level.len(),
            address.as_mut_ptr(),
            address.len(),
            reachable.as_mut_ptr(),
            reachable.len(),
            cost.as_mut_ptr(),
            cost.len(),
            numbers.as_mut_ptr(),
        )
    }
}

/// Its first shortest path. `numbers` as for `first`.
pub fn pcreq_first(asked: &PcReq, path: &mut [u32], numbers: &mut [u32; 4]) -> u32 {
    // SAFETY: the call reads profile and message and writes no further than
    // the buffer and the array's four numbers.
    unsafe {
        yq_pcreq_first(
            asked.profile.as_ptr(),
            asked.profile.len(),
            asked.ingress,
            asked.message.as_ptr(),
            asked.message.len(),
            path.as_mut_ptr(),
            path.len(),
            numbers.as_mut_ptr(),
        )
    }
}

/// Its shortest path after a given list. `numbers` as for `first`.
pub fn pcreq_next(asked: &PcReq, given: &[u32], path: &mut [u32], numbers: &mut [u32; 4]) -> u32 {
    // SAFETY: the call reads profile, message and given list and writes no
    // further than the buffer and the array's four numbers.
    unsafe {
        yq_pcreq_next(
            asked.profile.as_ptr(),
            asked.profile.len(),
            asked.ingress,
            asked.message.as_ptr(),
            asked.message.len(),
            given.as_ptr(),
            given.len(),
            path.as_mut_ptr(),
            path.len(),
            numbers.as_mut_ptr(),
        )
    }
}

/// A message to be read, and the buffers for its METRICs.
pub struct ReadPcReq<'a> {
    pub message: &'a [u8],
    pub buffers: MetricBuffers,
}

impl Case for ReadPcReq<'_> {
    type Call = fn(&[u8], &mut [u8], &mut [u8], &mut [u32], &mut [u32; 11]) -> u32;
    type Answer = Answer<11, MetricBuffers>;

    const LIBRARY: Self::Call = read_pcreq;
    const REFERENCE: Self::Call = reference::read_pcreq;

    fn answer(&self, call: Self::Call) -> Self::Answer {
        Answer::of(self.buffers.clone(), |(kinds, flags, values), numbers| {
            let (kinds, flags) = (kinds.buffer(), flags.buffer());
            call(self.message, kinds, flags, values.buffer(), numbers)
        })
    }
}

impl ReadPcReq<'_> {
    /// The fields, or number and place, the same from both programs and held to
    /// what is true of every reading.
    #[track_caller]
    pub fn read(&self, which: impl Display) -> Result<PcReqFields, Told> {
        let answer = compare(self, &which);
        let [place, numbers @ ..] = answer.numbers;
        let count = numbers[5] as usize;
        let kept = metrics::kept_past(&answer.buffers, count, &self.buffers);
        assert!(kept, "{which}: wrote more than the result: {answer:?}");
        if answer.number != 0 {
            assert_eq!(numbers, [0; 10], "{which}: {answer:?}");
            return Err(answer.verdict());
        }
        let [_, rp_flags, .., include, include_length, exclude, exclude_length] = numbers;
        let inside = |offset: u32, length: u32| (offset + length) as usize <= self.message.len();
        let shape = place == 0
            && rp_flags < 0x40
            && inside(include, include_length)
            && inside(exclude, exclude_length);
        assert!(shape, "{which}: not what a message can have: {answer:?}");
        let metrics = gather(&answer.buffers, count);
        Ok(PcReqFields { numbers, metrics })
    }
}

/// A reading with room for as many METRICs as the longest message has.
#[track_caller]
pub fn read(message: &[u8], which: impl Display) -> Result<PcReqFields, Told> {
    let buffers = metrics::buffers([message.len() / 12 + 1; 3]);
    ReadPcReq { message, buffers }.read(which)
}

/// A PCReq whose tree is asked for.
pub struct AskTree<'a> {
    pub asked: PcReq<'a>,
    pub buffers: tree::Buffers,
}

impl Case for AskTree<'_> {
    type Call = fn(&PcReq, &mut [u32], &mut [u32], &mut [u8], &mut [u32], &mut [u32; 4]) -> u32;
    type Answer = Answer<4, tree::Buffers>;

    const LIBRARY: Self::Call = pcreq_tree;
    const REFERENCE: Self::Call = reference::pcreq_tree;

    fn answer(&self, call: Self::Call) -> Self::Answer {
        Answer::of(
            self.buffers.clone(),
            |(level, address, reachable, cost), numbers| {
                call(
                    &self.asked,
                    level.buffer(),
                    address.buffer(),
                    reachable.buffer(),
                    cost.buffer(),
                    numbers,
                )
            },
        )
    }
}

/// A PCReq whose first path, or next after a given list, is asked for.
pub struct AskPath<'a> {
    pub asked: PcReq<'a>,
    pub given: Option<&'a [u32]>,
    pub path: Lent<u32>,
}

/// How a program is called for either.
pub struct Calls {
    first: fn(&PcReq, &mut [u32], &mut [u32; 4]) -> u32,
    next: fn(&PcReq, &[u32], &mut [u32], &mut [u32; 4]) -> u32,
}

impl Case for AskPath<'_> {
    type Call = Calls;
    type Answer = Answer<4, Lent<u32>>;

    const LIBRARY: Calls = Calls {
        first: pcreq_first,
        next: pcreq_next,
    };
    const REFERENCE: Calls = Calls {
        first: reference::pcreq_first,
        next: reference::pcreq_next,
    };

    fn answer(&self, call: Calls) -> Self::Answer {
        Answer::of(self.path.clone(), |path, numbers| match self.given {
            None => (call.first)(&self.asked, path.buffer(), numbers),
            Some(given) => (call.next)(&self.asked, given, path.buffer(), numbers),
        })
    }
}

/// What the library gives through a PCReq from first on, next after next, until
/// it gives no path any more: as `paths::listing` on a request.
pub fn listing(asked: &PcReq, length: usize, most: usize) -> (Vec<paths::Path>, (u32, [u32; 4])) {
    let mut found: Vec<paths::Path> = Vec::new();
    loop {
        let (mut path, mut numbers) = (vec![0xAAAA_AAAA; length], [7; 4]);
        let number = match found.last() {
            None => pcreq_first(asked, &mut path, &mut numbers),
            Some((given, ..)) => pcreq_next(asked, given, &mut path, &mut numbers),
        };
        if number != 0 || found.len() == most {
            return (found, (number, numbers));
        }
        found.push((path, numbers[1], numbers[3]));
    }
}

/// The buffers that a generated case brings for its tree.
fn lent(case: &RequestCase) -> tree::Buffers {
    (
        Lent::new(&case.level),
        Lent::new(&case.address),
        Lent::new(&case.reachable),
        Lent::new(&case.cost),
    )
}

/// The three calls through a message, all they leave the same from both
/// programs; and, where the message carries the request whole, the same as the
/// library's calls on that request. Their numbers and places.
#[track_caller]
pub fn ask(next: &NextCase, message: &[u8], carries: bool, which: &str) -> [(u32, u32); 3] {
    let request = next.request.request();
    let asked = PcReq {
        profile: request.profile,
        ingress: request.ingress,
        message,
    };
    let buffers = lent(&next.request);
    let tree = AskTree {
        asked,
        buffers: buffers.clone(),
    };
    let tree = compare(&tree, which);
    let path = |given, path: &[u32]| {
        let ask = AskPath {
            asked,
            given,
            path: Lent::new(path),
        };
        compare(&ask, which)
    };
    let first = path(None, &next.request.path);
    let after = path(Some(&next.given), &next.path);
    if carries {
        let base = tree::TreeCase { request, buffers }.answer(tree::TreeCase::LIBRARY);
        assert!(tree == base, "{which}: tree {tree:?}, {base:?}");
        let base = |given, path: &[u32]| {
            let path = Lent::new(path);
            let case = paths::PathCase {
                request,
                given,
                path,
            };
            case.answer(paths::PathCase::LIBRARY)
        };
        assert_eq!(first, base(None, &next.request.path), "{which}");
        assert_eq!(after, base(Some(&next.given), &next.path), "{which}");
    }
    [tree.verdict(), first.verdict(), after.verdict()]
}

/// The plainest PCReq that carries a request whose lists are of whole words.
pub fn carry(request: &Request) -> Vec<u8> {
    let mut objects = vec![
        rp(1, 0),
        end_points(request.source, request.destination),
        bandwidth(request.bandwidth_bits),
        iro(request.include),
        xro(request.exclude),
    ];
    if request.bound_counts {
        objects.push(metric(2, B, request.bound_bits));
    }
    message(PCREQ, &objects)
}
