//! AS numbers that are nobody's, and others beside them, put into profiles and
//! lists that are right.

use crate::by_hand::desired::subobjects;
use crate::lists::{long_as, marked, short_as};
use crate::wide::hops_at;
use reference::Request;

/// AS numbers that no domain and no list may have.
pub const NOBODYS: [u32; 2] = [0, 23_456];

/// Numbers beside them, and some with the same 16 bits in one half.
pub const OTHERS: [u32; 7] = [
    1,
    23_455,
    23_457,
    65_535,
    0x0001_5BA0,
    0x0002_0000,
    0x5BA0_0000,
];

/// The subobjects of these AS, in each form that can say them.
pub fn forms(as_numbers: &[u32]) -> Vec<Vec<u8>> {
    let each = as_numbers.iter().flat_map(|&as_number| {
        let short = u16::try_from(as_number).ok().map(short_as);
        short.into_iter().chain([long_as(as_number)])
    });
    each.collect()
}

/// The profile with another AS in one of its domain records, once where the record
/// stands and once with the records in their order; and the record's place.
pub fn with_as(profile: &[u8], index: usize, as_number: u32) -> [(Vec<u8>, u32); 2] {
    let (at, end) = (12 + 20 * index, hops_at(profile));
    let mut there = profile.to_vec();
    there[at..at + 4].copy_from_slice(&as_number.to_be_bytes());
    let mut records: Vec<&[u8]> = there[12..end].chunks_exact(20).collect();
    records.sort();
    let place = records
        .iter()
        .position(|&record| record == &there[at..at + 20]);
    let place = place.expect("it is still there") as u32;
    let in_order = [&there[..12], &records.concat(), &there[end..]].concat();
    [(there, index as u32), (in_order, place)]
}

/// A list with a subobject put into it, and that one's offset.
pub type Put = (Vec<u8>, u32);

/// The subobjects of a right list, each with its offset.
fn placed(list: &[u8]) -> Vec<(usize, &[u8])> {
    let mut all = Vec::new();
    let mut at = 0;
    for own in subobjects(list) {
        all.push((at, own));
        at += own.len();
    }
    all
}

/// A right list with a subobject before each of its own, and behind the last.
pub fn put_between(list: &[u8], piece: &[u8]) -> Vec<Put> {
    let put = |at: usize| ([&list[..at], piece, &list[at..]].concat(), at as u32);
    let mut all: Vec<Put> = placed(list).iter().map(|&(at, _)| put(at)).collect();
    all.push(put(list.len()));
    all
}

/// A right list with a subobject in the place of each AS that it has.
pub fn put_for_an_as(list: &[u8], piece: &[u8]) -> Vec<Put> {
    let mut own = placed(list);
    own.retain(|(_, own)| matches!(own[0] & 0x7F, 5 | 32));
    let put = |&(at, own): &(usize, &[u8])| {
        let after = &list[at + own.len()..];
        ([&list[..at], piece, after].concat(), at as u32)
    };
    own.iter().map(put).collect()
}

/// A right include list with a subobject inside each of its EXRS, at each place
/// there is in one, where it isn't too long with it.
pub fn put_inside(list: &[u8], piece: &[u8]) -> Vec<Put> {
    let mut all = Vec::new();
    for (at, own) in placed(list) {
        let length = own.len() + piece.len();
        if own[0] != 33 || length > 255 {
            continue;
        }
        let header = [33, length as u8, own[2], own[3]];
        let after = &list[at + own.len()..];
        for (inside, offset) in put_between(&own[4..], piece) {
            let list = [&list[..at], &header, &inside, after].concat();
            all.push((list, at as u32 + 4 + offset));
        }
    }
    all
}

/// Where an AS is put into the lists of a request.
pub const PLACES: [&str; 4] = [
    "in the include list",
    "for an AS of the include list",
    "inside an EXRS",
    "in the exclude list",
];

/// The lists of a request with an AS put into one of them at `offset`.
pub struct Changed {
    pub place: &'static str,
    pub include: Vec<u8>,
    pub exclude: Vec<u8>,
    pub offset: u32,
}

impl Changed {
    pub fn request<'a>(&'a self, of: &Request<'a>) -> Request<'a> {
        Request {
            include: &self.include,
            exclude: &self.exclude,
            ..*of
        }
    }
}

/// The lists of a request with an AS put in everywhere, one place at a time; as an
/// exclusion with X clear and set. Lists that are too long with it are left out.
pub fn everywhere(request: &Request, piece: &[u8]) -> Vec<Changed> {
    let Request {
        include, exclude, ..
    } = *request;
    let mut all = Vec::new();
    let mut add = |place, lists: Vec<Put>| {
        all.extend(lists.into_iter().map(|(list, offset)| match place {
            3 => (PLACES[3], include.to_vec(), list, offset),
            _ => (PLACES[place], list, exclude.to_vec(), offset),
        }));
    };
    add(0, put_between(include, piece));
    add(1, put_for_an_as(include, piece));
    for piece in [piece.to_vec(), marked(piece.to_vec())] {
        add(2, put_inside(include, &piece));
        add(3, put_between(exclude, &piece));
        add(3, put_for_an_as(exclude, &piece));
    }
    let fits = all
        .into_iter()
        .filter(|(_, include, exclude, _)| include.len() <= 1_024 && exclude.len() <= 1_024);
    let changed = |(place, include, exclude, offset)| Changed {
        place,
        include,
        exclude,
        offset,
    };
    fits.map(changed).collect()
}
