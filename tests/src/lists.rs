//! Domain lists: their subobjects written out by hand, and one reading given to
//! both programs.

use crate::by_hand::{domain, file, without_exrs};
use crate::compare::{compare, Answer, Case, Lent};
use reference::generate::{IncludeCase, Reading};
use std::fmt::Display;

/// An AS in the short form, type 32.
pub fn short_as(as_number: u16) -> Vec<u8> {
    [&[32, 4], &as_number.to_be_bytes()[..]].concat()
}

/// An AS in the long form, type 5.
pub fn long_as(as_number: u32) -> Vec<u8> {
    [&[5, 8, 0, 0], &as_number.to_be_bytes()[..]].concat()
}

pub fn ospf(area: u32) -> Vec<u8> {
    [&[6, 8, 0, 0], &area.to_be_bytes()[..]].concat()
}

pub fn is_is(area: &[u8]) -> Vec<u8> {
    let whole = 4 + area.len().div_ceil(4) * 4;
    let mut piece = [&[7, whole as u8, area.len() as u8, 0], area].concat();
    piece.resize(whole, 0);
    piece
}

/// An entry constraint: an address with prefix length 32.
pub fn entry(node: u32) -> Vec<u8> {
    [&[1, 8], &node.to_be_bytes()[..], &[32, 0]].concat()
}

/// An excluded node, or all nodes that share its first `length` bits.
pub fn excluded(node: u32, length: u8) -> Vec<u8> {
    [&[1, 8], &node.to_be_bytes()[..], &[length, 1]].concat()
}

/// An EXRS with these exclusions inside.
pub fn exrs(inside: &[Vec<u8>]) -> Vec<u8> {
    let inside = inside.concat();
    [&[33, 4 + inside.len() as u8, 0, 0], &inside[..]].concat()
}

/// The subobject with its first bit set: L in an include list, X in an exclude
/// list.
pub fn marked(mut piece: Vec<u8>) -> Vec<u8> {
    piece[0] |= 0x80;
    piece
}

/// What `read_include` is lent: domains, marks of entry constraints, nodes,
/// counts of EXRS bytes, and these.
pub type Buffers = (Lent<u16>, Lent<u8>, Lent<u32>, Lent<u32>, Lent<u8>);

/// Buffers of these capacities, filled with what no reading writes.
pub fn buffers([domains, pinned, pins, exrs_counts]: [usize; 4], exrs: usize) -> Buffers {
    (
        Lent::new(&vec![0xAAAA; domains]),
        Lent::new(&vec![0xAA; pinned]),
        Lent::new(&vec![0xAAAA_AAAA; pins]),
        Lent::new(&vec![0xAAAA_AAAA; exrs_counts]),
        Lent::new(&vec![0xAA; exrs]),
    )
}

/// The buffers that a generated case brings.
pub fn buffers_of(case: &IncludeCase) -> Buffers {
    (
        Lent::new(&case.domains),
        Lent::new(&case.pinned),
        Lent::new(&case.pins),
        Lent::new(&case.exrs_counts),
        Lent::new(&case.exrs),
    )
}

pub struct ReadInclude<'a> {
    pub profile: &'a [u8],
    pub ingress: u16,
    pub include: &'a [u8],
    pub buffers: Buffers,
}

pub type ReadCall = fn(
    &[u8],
    u16,
    &[u8],
    &mut [u16],
    &mut [u8],
    &mut [u32],
    &mut [u32],
    &mut [u8],
    &mut [u32; 3],
) -> u32;

impl Case for ReadInclude<'_> {
    type Call = ReadCall;
    type Answer = Answer<3, Buffers>;

    const LIBRARY: Self::Call = crate::read_include;
    const REFERENCE: Self::Call = reference::read_include;

    fn answer(&self, call: Self::Call) -> Self::Answer {
        Answer::of(self.buffers.clone(), |lent, numbers| {
            let (domains, pinned, pins, exrs_counts, exrs) = lent;
            call(
                self.profile,
                self.ingress,
                self.include,
                domains.buffer(),
                pinned.buffer(),
                pins.buffer(),
                exrs_counts.buffer(),
                exrs.buffer(),
                numbers,
            )
        })
    }
}

impl ReadInclude<'_> {
    /// What the list means, or number and place, the same from both programs
    /// and held to what is true of every reading.
    #[track_caller]
    pub fn read(&self, which: impl Display) -> Reading {
        let answer = compare(self, &which);
        let [place, count, bytes] = answer.numbers.map(|number| number as usize);
        let (domains, pinned, pins, exrs_counts, exrs) = &answer.buffers;
        let kept = domains.kept_past(count, &self.buffers.0)
            && pinned.kept_past(count, &self.buffers.1)
            && pins.kept_past(count, &self.buffers.2)
            && exrs_counts.kept_past(count, &self.buffers.3)
            && exrs.kept_past(bytes, &self.buffers.4);
        assert!(kept, "{which}: wrote more than the result: {answer:?}");
        if answer.number != 0 {
            assert_eq!((count, bytes), (0, 0), "{which}: {answer:?}");
            return Err(answer.verdict());
        }
        let fits = place == 0 && (1..=16).contains(&count) && exrs_counts.contents()[0] == 0;
        assert!(fits, "{which}: {answer:?}");
        let mut rest = &exrs.contents()[..bytes];
        let mut stops = Vec::new();
        for i in 0..count {
            let node = match (pinned.contents()[i], pins.contents()[i]) {
                (0, 0) => None,
                (1, node) => Some(node),
                _ => panic!("{which}: not a mark and its node at {i}: {answer:?}"),
            };
            let own = exrs_counts.contents()[i] as usize;
            let (own, after) = rest.split_at(own);
            stops.push((domains.contents()[i], node, own.to_vec()));
            rest = after;
        }
        assert!(rest.is_empty(), "{which}: {answer:?}");
        Ok(stops)
    }
}

/// A reading with capacity to spare.
#[track_caller]
pub fn read(profile: &[u8], ingress: u16, include: &[u8], which: impl Display) -> Reading {
    let case = ReadInclude {
        profile,
        ingress,
        include,
        buffers: buffers([17; 4], include.len().min(1_024) + 1),
    };
    case.read(which)
}

/// 0: 64496; 1 and 2: 64497 with OSPF areas 0 and 4; 3: 64498 with an IS-IS
/// area; 4: 65536.
pub fn five_domains() -> Vec<u8> {
    let domains = [
        domain(64496, 0, &[]),
        domain(64497, 1, &[0, 0, 0, 0]),
        domain(64497, 1, &[0, 0, 0, 4]),
        domain(64498, 2, &[0x49, 0, 1]),
        domain(65536, 0, &[]),
    ];
    file(0, &domains, &[])
}

/// Domains without entry constraints and EXRS.
pub fn bare(domains: impl IntoIterator<Item = u16>) -> Reading {
    without_exrs(domains.into_iter().map(|domain| (domain, None)))
}

/// Number and place; of a result both are 0.
pub fn verdict<T>(answer: &Result<T, (u32, u32)>) -> (u32, u32) {
    answer.as_ref().map_or_else(|&refused| refused, |_| (0, 0))
}

/// The kind of case that a sequence is by its length.
pub fn domain_kind(count: usize) -> String {
    format!("sequence of {count:>2} domains")
}
