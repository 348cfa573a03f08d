//! The form of a list of subobjects: numbers 23 to 27.

use crate::exrs;
use crate::outcome::NotDone;
use crate::profile::{u16_at, u32_at, IS_IS, OSPF};
use crate::reserved::nobodys;

const IPV4: u8 = 1;
const AS_FOUR_BYTES: u8 = 5;
const OSPF_AREA: u8 = 6;
const IS_IS_AREA: u8 = 7;
const AS_TWO_BYTES: u8 = 32;

/// The only attribute an excluded address may have: it names a node.
const ATTRIBUTE_NODE: u8 = 1;

/// Which list a subobject stands in: the first bit, type 1 and type 33 differ.
/// What stands inside an EXRS stands in an exclude list.
#[derive(Clone, Copy, Debug, PartialEq, Eq)]
pub enum List {
    Include,
    Exclude,
}

#[derive(Clone, Copy, Debug, PartialEq, Eq)]
pub enum Body<'a> {
    Address {
        address: u32,
        prefix: u8,
    },
    AsNumber(u32),
    Area {
        kind: u8,
        area: &'a [u8],
    },
    /// All bytes of an EXRS. Only an include list has it.
    Exrs(&'a [u8]),
}

#[derive(Clone, Copy, Debug, PartialEq, Eq)]
pub struct Subobject<'a> {
    pub offset: usize,
    /// X is set: the exclusion is desired, not demanded. Never so in an include
    /// list, where the same bit is L.
    pub desired: bool,
    pub body: Body<'a>,
}

/// All subobjects of a list, or the first one whose form is wrong.
pub fn read_form(bytes: &[u8], list: List) -> Result<Vec<Subobject<'_>>, NotDone> {
    let mut subobjects = Vec::new();
    let mut walk = Walk {
        bytes,
        offset: 0,
        list,
    };
    while let Some(subobject) = walk.step()? {
        subobjects.push(subobject);
    }
    Ok(subobjects)
}

/// The first subobject whose form is wrong, if any is.
pub fn check_form(bytes: &[u8], list: List) -> Result<(), NotDone> {
    let mut offset = 0;
    while offset < bytes.len() {
        match measure(&bytes[offset..], list) {
            Ok(length) => offset += length,
            Err(wrong) => return Err(wrong.moved(offset)),
        }
    }
    Ok(())
}

/// A list and the place in it.
struct Walk<'a> {
    bytes: &'a [u8],
    offset: usize,
    list: List,
}

impl<'a> Walk<'a> {
    /// The subobject at the place, which then moves past it.
    fn step(&mut self) -> Result<Option<Subobject<'a>>, NotDone> {
        let offset = self.offset;
        let rest = &self.bytes[offset..];
        if rest.is_empty() {
            return Ok(None);
        }
        let length = measure(rest, self.list).map_err(|wrong| wrong.moved(offset))?;
        self.offset += length;
        Ok(Some(Subobject {
            offset,
            desired: top_bit(rest),
            body: body(&rest[..length]),
        }))
    }
}

/// How long the subobject is that `rest` begins with, if its form is right; else
/// the number, and its place in `rest`. The checks come in document 01's order,
/// which judges the type before the length and a length that isn't the type's
/// before one that runs past the end.
fn measure(rest: &[u8], list: List) -> Result<usize, NotDone> {
    if rest.len() < 4 {
        return NotDone::at(23, 0);
    }
    let kind = rest[0] & 0x7F;
    let Some(length) = length_of(kind, rest[2]) else {
        return match (kind, list) {
            (exrs::TYPE, List::Include) => exrs::measure(rest),
            _ => NotDone::at(24, 0),
        };
    };
    if list == List::Include && top_bit(rest) {
        return NotDone::at(27, 0);
    }
    if kind == IS_IS_AREA && !(1..=13).contains(&rest[2]) {
        return NotDone::at(26, 0);
    }
    if length != usize::from(rest[1]) {
        return NotDone::at(25, 0);
    }
    let Some(whole) = rest.get(..length) else {
        return NotDone::at(23, 0);
    };
    let fits = match kind {
        IPV4 => address_fits(whole[6], whole[7], list),
        AS_FOUR_BYTES | AS_TWO_BYTES => !nobodys(as_number(whole)),
        IS_IS_AREA => whole[4 + usize::from(whole[2])..].iter().all(|&b| b == 0),
        _ => true,
    };
    match fits {
        true => Ok(length),
        false => NotDone::at(26, 0),
    }
}

/// The bit before the type: L in an include list, X in an exclude list.
fn top_bit(subobject: &[u8]) -> bool {
    subobject[0] & 0x80 != 0
}

/// The whole length of a subobject of a supported type, but for an EXRS, which
/// has none of its own. `third` is its third byte, which is the area length of an
/// IS-IS area and means nothing here for the others.
fn length_of(kind: u8, third: u8) -> Option<usize> {
    match kind {
        IPV4 | AS_FOUR_BYTES | OSPF_AREA => Some(8),
        AS_TWO_BYTES => Some(4),
        IS_IS_AREA => Some(4 + usize::from(third).div_ceil(4) * 4),
        _ => None,
    }
}

fn address_fits(prefix: u8, attribute: u8, list: List) -> bool {
    match list {
        List::Include => prefix == 32,
        List::Exclude => prefix <= 32 && attribute == ATTRIBUTE_NODE,
    }
}

/// The AS of a subobject in either form; a short one has the low 16 bits alone.
fn as_number(whole: &[u8]) -> u32 {
    match whole.len() {
        4 => u16_at(whole, 2).into(),
        _ => u32_at(whole, 4),
    }
}

/// The body of a subobject whose form is right.
fn body(whole: &[u8]) -> Body<'_> {
    match whole[0] & 0x7F {
        IPV4 => Body::Address {
            address: u32_at(whole, 2),
            prefix: whole[6],
        },
        AS_FOUR_BYTES | AS_TWO_BYTES => Body::AsNumber(as_number(whole)),
        OSPF_AREA => Body::Area {
            kind: OSPF,
            area: &whole[4..8],
        },
        exrs::TYPE => Body::Exrs(whole),
        _ => Body::Area {
            kind: IS_IS,
            area: &whole[4..4 + usize::from(whole[2])],
        },
    }
}
