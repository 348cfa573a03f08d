//! Domain lists that are written: one writing given to both programs.

use crate::compare::{compare, Answer, Case, Lent};
use reference::generate::{Reading, WriteCase};
use std::fmt::Display;

/// The list, or number and place.
pub type Written = Result<Vec<u8>, (u32, u32)>;

pub struct WriteList<'a> {
    pub profile: &'a [u8],
    pub domains: &'a [u16],
    pub pinned: &'a [u8],
    pub pins: &'a [u32],
    pub exrs_counts: &'a [u32],
    pub exrs: &'a [u8],
    pub out: Lent<u8>,
}

impl<'a> WriteList<'a> {
    /// A generated sequence into this buffer.
    pub fn of(case: &'a WriteCase, out: Lent<u8>) -> WriteList<'a> {
        WriteList {
            profile: &case.profile,
            domains: &case.domains,
            pinned: &case.pinned,
            pins: &case.pins,
            exrs_counts: &case.exrs_counts,
            exrs: &case.exrs,
            out,
        }
    }
}

pub type WriteCall =
    fn(&[u8], &[u16], &[u8], &[u32], &[u32], &[u8], &mut [u8], &mut [u32; 2]) -> u32;

impl Case for WriteList<'_> {
    type Call = WriteCall;
    type Answer = Answer<2, Lent<u8>>;

    const LIBRARY: Self::Call = crate::write_list;
    const REFERENCE: Self::Call = reference::write_list;

    fn answer(&self, call: Self::Call) -> Self::Answer {
        Answer::of(self.out.clone(), |out, numbers| {
            call(
                self.profile,
                self.domains,
                self.pinned,
                self.pins,
                self.exrs_counts,
                self.exrs,
                out.buffer(),
                numbers,
            )
        })
    }
}

impl WriteList<'_> {
    /// What is written, or number and place, the same from both programs and
    /// held to what is true of every writing.
    #[track_caller]
    pub fn write(&self, which: impl Display) -> Written {
        let answer = compare(self, &which);
        let (place, length) = (answer.numbers[0], answer.numbers[1] as usize);
        let kept = answer.buffers.kept_past(length, &self.out);
        assert!(kept, "{which}: wrote more than the result: {answer:?}");
        if answer.number != 0 {
            assert_eq!(length, 0, "{which}: {answer:?}");
            return Err(answer.verdict());
        }
        assert!(place == 0 && length <= 1024, "{which}: {answer:?}");
        Ok(answer.buffers.contents()[..length].to_vec())
    }
}

/// What lies in the buffer before a call: no byte of it is 0, so that a zero
/// not written is noticed.
pub fn old_bytes(capacity: usize) -> Lent<u8> {
    Lent::new(&vec![0xAA; capacity])
}

/// Capacity for every list without EXRS: 16 domains, each with its AS and 13
/// area bytes, and 15 entry constraints.
pub const LONGEST: usize = 16 * (8 + 20) + 15 * 8;

/// Capacity for every list.
pub const LONGEST_OF_ALL: usize = 1_024;

/// A writing without EXRS, with capacity to spare.
#[track_caller]
pub fn write(profile: &[u8], domains: &[u16], pinned: &[u8], pins: &[u32]) -> Written {
    let case = WriteList {
        profile,
        domains,
        pinned,
        pins,
        exrs_counts: &vec![0; domains.len()],
        exrs: &[],
        out: old_bytes(LONGEST + 9),
    };
    case.write(format_args!("{domains:?}, {pinned:?}, {pins:08X?}"))
}

/// The sequence that the writer is given, without EXRS.
pub fn sequence(domains: &[u16], pinned: &[u8], pins: &[u32]) -> Reading {
    let stop = |i: usize| {
        let entry = (pinned[i] == 1).then_some(pins[i]);
        (domains[i], entry, Vec::new())
    };
    Ok((0..domains.len()).map(stop).collect())
}

/// The sequence of a case that is written, with its EXRS.
pub fn whole_sequence(case: &WriteCase) -> Reading {
    let mut stops = sequence(&case.domains, &case.pinned, &case.pins)?;
    let mut rest = &case.exrs[..];
    for ((_, _, exrs), &count) in stops.iter_mut().zip(&case.exrs_counts) {
        let (own, after) = rest.split_at(count as usize);
        *exrs = own.to_vec();
        rest = after;
    }
    Ok(stops)
}
