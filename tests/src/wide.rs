//! Wide costs: one request given to every call that tells a path or its cost.

use crate::by_hand::ask;
use crate::compare::{compare, Answer, Case, Lent};
use crate::paths::{buffer, path_length, PathCase, LONGEST};
use crate::pcreq::{carry, AskPath, AskTree};
use crate::rows::row_path;
use crate::series::SeriesCase;
use crate::tree::{buffers, build, Tree, TreeCase, MOST_ENTRIES};
use reference::Call::{First, Next};
use reference::{PcReq, Request};

/// The greatest cost of a hop, and the greatest total: 16 times that.
pub const MOST: u32 = 16_777_215;
pub const GREATEST: u32 = 268_435_440;

/// The request for the path of a row of so many domains.
pub fn along<'a>(profile: &'a [u8], include: &'a [u8], domains: usize) -> Request<'a> {
    Request {
        destination: row_path(domains)[domains],
        ..ask(profile, include)
    }
}

pub fn bounded(request: Request, bound_bits: u32) -> Request {
    Request {
        bound_counts: true,
        bound_bits,
        ..request
    }
}

/// Where the hop records of a profile begin.
pub fn hops_at(profile: &[u8]) -> usize {
    let domains = usize::from(profile[6]) << 8 | usize::from(profile[7]);
    12 + 20 * domains
}

fn cost_of(record: &[u8]) -> u32 {
    u32::from_be_bytes([record[12], record[13], record[14], record[15]])
}

/// The costs of a profile's hops, in order.
pub fn costs(profile: &[u8]) -> Vec<u32> {
    let records = profile[hops_at(profile)..].chunks_exact(20);
    records.map(cost_of).collect()
}

/// Changes the cost of each hop, by its number among them and its cost.
pub fn change_costs(profile: &mut [u8], change: impl Fn(usize, u32) -> u32) {
    let at = hops_at(profile);
    for (index, record) in profile[at..].chunks_exact_mut(20).enumerate() {
        let cost = change(index, cost_of(record));
        record[12..16].copy_from_slice(&cost.to_be_bytes());
    }
}

/// What all calls tell of a request that has one shortest path or none.
pub struct Told {
    /// The answer of first.
    pub number: u32,
    pub numbers: [u32; 4],
    /// Empty where there is none.
    pub path: Vec<u32>,
    pub tree: Tree,
}

/// Everything a call for a path leaves.
type PathAnswer = Answer<4, Lent<u32>>;

/// First, next, tree and a series on the request, and first, next and tree
/// through a message that carries it: the same from both programs, and the same
/// path each time.
#[track_caller]
pub fn tell(request: &Request, which: &str) -> Told {
    let length = path_length(request);
    let message = carry(request);
    let asked = PcReq {
        profile: request.profile,
        ingress: request.ingress,
        message: &message,
    };
    let zeros = vec![0; length];
    let by_call = |given: Option<&[u32]>| -> PathAnswer {
        let case = PathCase {
            request: *request,
            given,
            path: buffer(LONGEST + 1),
        };
        let direct = compare(&case, which);
        let path = buffer(LONGEST + 1);
        let carried = compare(&AskPath { asked, given, path }, which);
        assert_eq!(carried, direct, "{which}: through a PCReq");
        direct
    };
    let (first, next) = (by_call(None), by_call(Some(&zeros)));
    let found = first.number == 0;
    let none = Answer {
        number: 2,
        ..first.clone()
    };
    assert_eq!(next, if found { first.clone() } else { none }, "{which}");
    let path = match found {
        true => first.buffers.contents()[..length].to_vec(),
        false => Vec::new(),
    };
    if found {
        let last = by_call(Some(&path));
        assert_eq!((last.number, last.numbers), (2, [0; 4]), "{which}: last");
    }
    tell_series(request, &first, which);
    let lent = buffers([MOST_ENTRIES + 1; 4]);
    let case = TreeCase {
        request: *request,
        buffers: lent.clone(),
    };
    let ask = AskTree {
        asked,
        buffers: lent,
    };
    let (carried, direct) = (compare(&ask, which), case.answer(TreeCase::LIBRARY));
    assert_eq!(carried, direct, "{which}: the tree through a PCReq");
    Told {
        number: first.number,
        numbers: first.numbers,
        path,
        tree: build(request, which).expect("it is accepted"),
    }
}

/// A series that asks for the one path twice, with a next after it.
#[track_caller]
fn tell_series(request: &Request, first: &PathAnswer, which: &str) {
    let calls = [First, Next, First];
    let buffers = vec![buffer(LONGEST + 1).contents().to_vec(); 3];
    let case = SeriesCase {
        request: *request,
        calls: &calls,
        buffers: &buffers,
    };
    let (outcomes, left) = case.agreed(which);
    for i in [0, 2] {
        let told = (outcomes[i].number, outcomes[i].numbers);
        assert_eq!(told, (first.number, first.numbers), "{which}: series");
        assert_eq!(left[i], first.buffers.contents(), "{which}: series");
    }
    let end = if first.number == 0 { 2 } else { 33 };
    let told = (outcomes[1].number, outcomes[1].numbers);
    assert_eq!(told, (end, [0; 4]), "{which}: series");
}
