//! A series of calls for first and next on one request: as a run of the calls
//! themselves, and as document 01's book (here: reference series) has it.

use crate::calls::{first, next, read_include};
use crate::floats::nearest_bits;
use crate::outcome::{settle, NotDone};
use crate::paths::ShortestPaths;
use crate::plain::Plain;
use crate::request::{Question, Request};

/// Above this many walks the reference series counts instead of listing.
const LISTED_WALKS: u128 = 2000;

#[derive(Clone, Copy, Debug, PartialEq, Eq)]
pub enum Call {
    First,
    Next,
}

/// What a call of a series answers; its buffer is the third thing to compare.
#[derive(Clone, Copy, Debug, PartialEq, Eq)]
pub struct Outcome {
    pub number: u32,
    /// Place, total, the total's float bits, round.
    pub numbers: [u32; 4],
}

/// Runs the calls, each with its own buffer; a next is given a copy of the
/// path last written, or an empty list before any.
pub fn series(request: &Request, calls: &[Call], buffers: &mut [Vec<u32>]) -> Vec<Outcome> {
    let length = path_length(request);
    let mut last_written: Vec<u32> = Vec::new();
    let mut outcomes = Vec::new();
    for (call, buffer) in calls.iter().zip(buffers) {
        let mut numbers = [0; 4];
        let number = match call {
            Call::First => first(request, buffer, &mut numbers),
            Call::Next => next(request, &last_written, buffer, &mut numbers),
        };
        if number == 0 {
            last_written = buffer[..length].to_vec();
        }
        outcomes.push(Outcome { number, numbers });
    }
    outcomes
}

/// How many of a buffer's addresses are the path: a caller learns it from the
/// sequence, which `read_include` gives. Never used for a refused request.
fn path_length(request: &Request) -> usize {
    let mut numbers = [0; 3];
    let (mut domains, mut pinned, mut pins) = ([0u16; 16], [0u8; 16], [0u32; 16]);
    let (mut exrs_counts, mut exrs) = ([0u32; 16], [0u8; 1024]);
    read_include(
        request.profile,
        request.ingress,
        request.include,
        &mut domains,
        &mut pinned,
        &mut pins,
        &mut exrs_counts,
        &mut exrs,
        &mut numbers,
    );
    numbers[1] as usize + 1
}

/// The same series by the book: it has the listing of the round that applies
/// and a position, and looks at nothing of a call but its kind and buffer.
pub fn reference_series(
    request: &Request,
    calls: &[Call],
    buffers: &mut [Vec<u32>],
) -> Vec<Outcome> {
    let mut book = Book::open(request);
    let mut outcomes = Vec::new();
    for (call, buffer) in calls.iter().zip(buffers) {
        let result = match &mut book {
            Ok(book) => book.answer(*call, buffer),
            // A refused request is refused by every call.
            Err(refusal) => Err(*refusal),
        };
        let mut numbers = [0; 4];
        let number = settle(result, &mut numbers);
        outcomes.push(Outcome { number, numbers });
    }
    outcomes
}

/// The shortest paths by position: listed where that is small, else counted.
enum Listing {
    Whole(Vec<Vec<u32>>),
    Counted(Box<ShortestPaths>),
}

impl Listing {
    fn count(&self) -> u128 {
        match self {
            Listing::Whole(paths) => paths.len() as u128,
            Listing::Counted(paths) => paths.count(),
        }
    }

    fn at(&self, position: u128) -> Option<Vec<u32>> {
        match self {
            Listing::Whole(paths) => paths.get(position as usize).cloned(),
            Listing::Counted(paths) => paths.at(position),
        }
    }
}

struct Book {
    listing: Listing,
    total: Option<u32>,
    round: u32,
    length: usize,
    /// How many paths have been handed out since the last first, and with it
    /// the position of the next one; 0 before any.
    position: u128,
}

impl Book {
    fn open(request: &Request) -> Result<Book, NotDone> {
        let plain = Plain::new(request)?;
        let (listing, total, round) = if plain.walk_count() <= LISTED_WALKS {
            let listed = plain.listing();
            (Listing::Whole(listed.paths), listed.total, listed.round)
        } else {
            let paths = ShortestPaths::new(Question::accept(request)?);
            let (total, round) = (paths.total(), paths.round());
            (Listing::Counted(Box::new(paths)), total, round)
        };
        Ok(Book {
            listing,
            total,
            round,
            length: plain.path_length(),
            position: 0,
        })
    }

    fn answer(&mut self, call: Call, buffer: &mut [u32]) -> Result<[u32; 4], NotDone> {
        if call == Call::Next && self.position == 0 {
            return NotDone::at(33, 0);
        }
        if buffer.len() < self.length {
            return NotDone::at(34, 0);
        }
        let (position, none) = match call {
            Call::First => (0, 1),
            Call::Next => (self.position, 2),
        };
        if position == self.listing.count() {
            return NotDone::at(none, 0);
        }
        self.hand_out(position, buffer)
    }

    fn hand_out(&mut self, position: u128, buffer: &mut [u32]) -> Result<[u32; 4], NotDone> {
        let path = self
            .listing
            .at(position)
            .expect("a position below the count");
        let total = self.total.expect("a listed path has a total");
        buffer[..path.len()].copy_from_slice(&path);
        self.position = position + 1;
        Ok([0, total, nearest_bits(total), self.round])
    }
}
