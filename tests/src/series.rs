//! A series of calls for first and next: the C call, and one series run by the
//! library, by the reference and by document 01's book.

use crate::compare::Lent;
use crate::paths::path_length;
use crate::request::{call, declare};
use reference::generate::Random;
use reference::{reference_series, Call, Outcome, Request};
use std::fmt::Display;

declare!(yq_series(
    kinds: *const u8,
    kinds_count: usize,
    sizes: *const u32,
    sizes_count: usize,
    buffers: *mut u32,
    buffers_count: usize,
    numbers: *mut u32,
    numbers_count: usize,
));

/// Runs a series; `kinds`: 0 for first, 1 for next. The calls' buffers stand
/// back to back in `buffers`. `numbers`, five for each call: answer, place,
/// total, the total's float bits, round.
pub fn series(
    request: &Request,
    kinds: &[u8],
    sizes: &[u32],
    buffers: &mut [u32],
    numbers: &mut [u32],
) -> u32 {
    // SAFETY: the call reads the request's lists and the first two, and writes
    // no further than the other two.
    unsafe {
        call!(yq_series(
            request,
            kinds.as_ptr(),
            kinds.len(),
            sizes.as_ptr(),
            sizes.len(),
            buffers.as_mut_ptr(),
            buffers.len(),
            numbers.as_mut_ptr(),
            numbers.len(),
        ))
    }
}

/// The number for arguments that don't fit together.
pub const MALFORMED: u32 = 100;

/// How many numbers each call of a series stores.
pub const NUMBERS: usize = 5;

pub fn kinds_of(calls: &[Call]) -> Vec<u8> {
    let kind = |call: &Call| u8::from(*call == Call::Next);
    calls.iter().map(kind).collect()
}

/// The calls' answers, and their buffers afterwards.
pub type Ran = (Vec<Outcome>, Vec<Vec<u32>>);

/// A series with the buffer of each call.
pub struct SeriesCase<'a> {
    pub request: Request<'a>,
    pub calls: &'a [Call],
    pub buffers: &'a [Vec<u32>],
}

impl SeriesCase<'_> {
    /// What the library leaves; `spare` numbers are lent more than it needs.
    #[track_caller]
    pub fn run(&self, spare: usize, which: impl Display) -> Ran {
        let sizes: Vec<u32> = self
            .buffers
            .iter()
            .map(|buffer| buffer.len() as u32)
            .collect();
        let mut lent = Lent::new(&self.buffers.concat());
        let mut numbers = Lent::new(&vec![0xAAAA_AAAA; NUMBERS * self.calls.len() + spare]);
        let before = (lent.clone(), numbers.clone());
        let kinds = kinds_of(self.calls);
        let done = series(
            &self.request,
            &kinds,
            &sizes,
            lent.buffer(),
            numbers.buffer(),
        );
        assert_eq!(done, 0, "{which}");
        let (written, stored) = (lent.contents().len(), NUMBERS * self.calls.len());
        let kept = lent.kept_past(written, &before.0) && numbers.kept_past(stored, &before.1);
        assert!(kept, "{which}: wrote outside");
        let mut rest = lent.contents();
        let buffers = sizes.iter().map(|&size| {
            let (buffer, after) = rest.split_at(size as usize);
            rest = after;
            buffer.to_vec()
        });
        let buffers = buffers.collect();
        (outcomes(&numbers.contents()[..stored]), buffers)
    }

    /// What the book says.
    pub fn book(&self) -> Ran {
        let mut buffers = self.buffers.to_vec();
        let outcomes = reference_series(&self.request, self.calls, &mut buffers);
        (outcomes, buffers)
    }

    /// What the reference's own calls leave, one after the other.
    pub fn run_by_reference(&self) -> Ran {
        let mut buffers = self.buffers.to_vec();
        let outcomes = reference::series(&self.request, self.calls, &mut buffers);
        (outcomes, buffers)
    }

    /// What all three leave.
    #[track_caller]
    pub fn agreed(&self, which: impl Display) -> Ran {
        let (library, book) = (self.run(0, &which), self.book());
        assert!(
            library == book,
            "{which}\n  library: {library:?}\n  book:    {book:?}"
        );
        let reference = self.run_by_reference();
        assert!(
            reference == book,
            "{which}\n  reference: {reference:?}\n  book: {book:?}"
        );
        library
    }
}

fn outcomes(numbers: &[u32]) -> Vec<Outcome> {
    let (each, _) = numbers.as_chunks();
    let outcome = |&[number, place, total, float_bits, round]: &[u32; NUMBERS]| Outcome {
        number,
        numbers: [place, total, float_bits, round],
    };
    each.iter().map(outcome).collect()
}

/// A series of up to 12 calls, by the library, the reference and the book.
#[track_caller]
pub fn any(random: &mut Random, request: Request, which: &str) -> Ran {
    let length = path_length(&request);
    let mut calls: Vec<Call> = Vec::new();
    let mut buffers: Vec<Vec<u32>> = Vec::new();
    for i in 0..random.between(1, 12) {
        let is_first = i == 1 || random.chance(1, 5);
        calls.push(if is_first { Call::First } else { Call::Next });
        let capacity = random.capacity(length);
        buffers.push(random.words(capacity));
    }
    let case = SeriesCase {
        request,
        calls: &calls,
        buffers: &buffers,
    };
    case.agreed(which)
}
