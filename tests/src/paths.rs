//! first and next: the C calls, and one of them made by both programs.

use crate::by_hand::desired::some_desired;
use crate::compare::{compare, Answer, Case, Lent};
use crate::floats::nearest;
use crate::request::{call, declare};
use reference::{Question, Request};
use std::fmt::Display;

declare!(yq_first(path: *mut u32, path_count: usize, numbers: *mut u32));

declare!(yq_next(
    given: *const u32,
    given_count: usize,
    path: *mut u32,
    path_count: usize,
    numbers: *mut u32,
));

/// The first shortest path. `numbers`: place, total, the total's float bits,
/// round.
pub fn first(request: &Request, path: &mut [u32], numbers: &mut [u32; 4]) -> u32 {
    // SAFETY: the call reads the request's lists and writes no further than
    // the buffer and the array's four numbers.
    unsafe {
        call!(yq_first(
            request,
            path.as_mut_ptr(),
            path.len(),
            numbers.as_mut_ptr(),
        ))
    }
}

/// The shortest path after a given list. `numbers` as for `first`.
pub fn next(request: &Request, given: &[u32], path: &mut [u32], numbers: &mut [u32; 4]) -> u32 {
    // SAFETY: the call reads the request's lists and the given one and writes
    // no further than the buffer and the array's four numbers.
    unsafe {
        call!(yq_next(
            request,
            given.as_ptr(),
            given.len(),
            path.as_mut_ptr(),
            path.len(),
            numbers.as_mut_ptr(),
        ))
    }
}

/// The most addresses a path can have.
pub const LONGEST: usize = 17;

/// A path's addresses, its total, and the round that it is found in.
pub type Path = (Vec<u32>, u32, u32);

/// The path, or number and place.
pub type Found = Result<Path, (u32, u32)>;

/// A buffer of this capacity, filled with what no path here has.
pub fn buffer(capacity: usize) -> Lent<u32> {
    Lent::new(&vec![0xAAAA_AAAA; capacity])
}

/// A call for a path: the first, or the next after a given list.
pub struct PathCase<'a> {
    pub request: Request<'a>,
    pub given: Option<&'a [u32]>,
    pub path: Lent<u32>,
}

/// How a program is called for either.
pub struct Calls {
    first: fn(&Request, &mut [u32], &mut [u32; 4]) -> u32,
    next: fn(&Request, &[u32], &mut [u32], &mut [u32; 4]) -> u32,
}

impl Case for PathCase<'_> {
    type Call = Calls;
    type Answer = Answer<4, Lent<u32>>;

    const LIBRARY: Calls = Calls { first, next };
    const REFERENCE: Calls = Calls {
        first: reference::first,
        next: reference::next,
    };

    fn answer(&self, call: Calls) -> Self::Answer {
        Answer::of(self.path.clone(), |path, numbers| match self.given {
            None => (call.first)(&self.request, path.buffer(), numbers),
            Some(given) => (call.next)(&self.request, given, path.buffer(), numbers),
        })
    }
}

impl PathCase<'_> {
    /// The path, or number and place, the same from both programs and held to
    /// what is true of every path.
    #[track_caller]
    pub fn find(&self, which: impl Display) -> Found {
        let answer = compare(self, &which);
        let [place, total, float_bits, round] = answer.numbers;
        let found = answer.number == 0;
        let length = if found { path_length(&self.request) } else { 0 };
        let kept = answer.buffers.kept_past(length, &self.path);
        assert!(kept, "{which}: wrote more than the result: {answer:?}");
        if !found {
            let numbers = (total, float_bits, round);
            assert_eq!(numbers, (0, 0, 0), "{which}: {answer:?}");
            return Err(answer.verdict());
        }
        let path = answer.buffers.contents()[..length].to_vec();
        let ends = (path[0], path[length - 1]);
        assert_eq!(place, 0, "{which}: {answer:?}");
        assert_eq!(ends, (self.request.source, self.request.destination));
        assert_eq!(float_bits, nearest(total), "{which}");
        let may_be = round == 1 || round == 2 && some_desired(&self.request);
        assert!(may_be, "{which}: {answer:?}");
        Ok((path, total, round))
    }
}

/// How many addresses a path of an accepted request has.
pub fn path_length(request: &Request) -> usize {
    Question::accept(request).map_or(0, |question| question.path_length())
}

/// The first path, with capacity to spare.
#[track_caller]
pub fn find_first(request: &Request, which: impl Display) -> Found {
    let case = PathCase {
        request: *request,
        given: None,
        path: buffer(LONGEST + 1),
    };
    case.find(which)
}

/// The next path after a given list, with capacity to spare.
#[track_caller]
pub fn find_next(request: &Request, given: &[u32], which: impl Display) -> Found {
    let case = PathCase {
        request: *request,
        given: Some(given),
        path: buffer(LONGEST + 1),
    };
    case.find(which)
}

/// What the library alone gives from first on, next after next, until it gives
/// no path any more: the paths with total and round, and that answer. At most
/// `most` paths.
pub fn listing(request: &Request, most: usize) -> (Vec<Path>, (u32, [u32; 4])) {
    let length = path_length(request);
    let mut paths: Vec<Path> = Vec::new();
    loop {
        let (mut path, mut numbers) = (vec![0xAAAA_AAAA; length], [7; 4]);
        let number = match paths.last() {
            None => first(request, &mut path, &mut numbers),
            Some((given, ..)) => next(request, given, &mut path, &mut numbers),
        };
        if number != 0 || paths.len() == most {
            return (paths, (number, numbers));
        }
        paths.push((path, numbers[1], numbers[3]));
    }
}
