//! One request given to every call that takes a profile.

use crate::compare::{compare, Answer};
use crate::lists::{read, verdict};
use crate::paths::{buffer, path_length, PathCase, LONGEST};
use crate::pcreq::{carry, AskPath, AskTree};
use crate::series::SeriesCase;
use crate::tree::{buffers, build, MOST_ENTRIES};
use crate::writing::write;
use reference::Call::First;
use reference::{PcReq, Request};
use std::fmt::Debug;

/// How many calls take a profile.
pub const CALLS: usize = 10;

/// Number and place of every call that takes a profile, the same from both
/// programs: of check_profile, read_include and write_list, then of those on the
/// request, directly and through a message, for which its lists are of whole words.
#[track_caller]
pub fn verdicts(request: &Request, which: &str) -> [(u32, u32); CALLS] {
    let profile = request.profile;
    let message = carry(request);
    let asked = PcReq {
        profile,
        ingress: request.ingress,
        message: &message,
    };
    let zeros = vec![0; path_length(request)];
    let by_call = |given: Option<&[u32]>| {
        let path = buffer(LONGEST);
        let case = PathCase {
            request: *request,
            given,
            path: path.clone(),
        };
        let ask = AskPath { asked, given, path };
        [compare(&case, which), compare(&ask, which)].map(|answer| told(&answer, &case.path, which))
    };
    let [first, asked_first] = by_call(None);
    let [next, asked_next] = by_call(Some(&zeros));
    let ask = AskTree {
        asked,
        buffers: buffers([MOST_ENTRIES; 4]),
    };
    let lent = [buffer(LONGEST).contents().to_vec()];
    let series = SeriesCase {
        request: *request,
        calls: &[First],
        buffers: &lent,
    };
    let (ran, left) = series.agreed(which);
    assert!(ran[0].number == 0 || left == lent, "{which}: {left:?}");
    [
        checked(profile),
        verdict(&read(profile, request.ingress, request.include, which)),
        verdict(&write(profile, &[0], &[0], &[0])),
        verdict(&build(request, which)),
        first,
        next,
        (ran[0].number, ran[0].numbers[0]),
        told(&compare(&ask, which), &ask.buffers, which),
        asked_first,
        asked_next,
    ]
}

/// Number and place. Unless the answer is 0, all else is 0 and the buffers hold
/// what they held.
#[track_caller]
fn told<const N: usize, B: PartialEq + Debug>(
    answer: &Answer<N, B>,
    lent: &B,
    which: &str,
) -> (u32, u32) {
    let kept = answer.numbers[1..].iter().all(|&number| number == 0) && answer.buffers == *lent;
    assert!(answer.number == 0 || kept, "{which}: {answer:?}");
    answer.verdict()
}

/// What check_profile says.
#[track_caller]
fn checked(profile: &[u8]) -> (u32, u32) {
    let (mut library, mut reference) = ([7], [7]);
    let number = crate::check_profile(profile, &mut library);
    let same = reference::check_profile(profile, &mut reference);
    assert_eq!((number, library), (same, reference), "check_profile");
    (number, library[0])
}
