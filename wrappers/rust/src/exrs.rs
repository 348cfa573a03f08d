//! EXRS (RFC 5521): what is excluded for one domain of a sequence alone, made of
//! exclusions and taken apart into them. This is the wrapper's own work; what it
//! makes has the form that the library asks for.

use std::error::Error;
use std::fmt;
use std::net::Ipv4Addr;

const EXRS: u8 = 33;
const X: u8 = 0x80;
/// The most bytes of an EXRS, and of an IS-IS area.
const MOST_BYTES: usize = 252;
const MOST_AREA: usize = 13;
/// The attribute of an address that is a node's.
const NODE: u8 = 1;

/// What can be excluded.
#[derive(Clone, Debug, PartialEq, Eq, Hash)]
pub enum Excluded {
    /// Any but 0 and 23456, which are nobody's.
    As(u32),
    OspfArea(u32),
    /// Of 1 to 13 bytes.
    IsisArea(Vec<u8>),
    /// Every node whose address begins with the same bits, as many as the prefix
    /// says, at most 32.
    Nodes {
        address: Ipv4Addr,
        prefix: u8,
    },
}

impl Excluded {
    pub fn node(address: Ipv4Addr) -> Self {
        let prefix = 32;
        Excluded::Nodes { address, prefix }
    }

    /// The exclusion that counts in any case: X clear.
    pub fn demanded(self) -> Exclusion {
        let desired = false;
        Exclusion {
            what: self,
            desired,
        }
    }

    /// The exclusion that is only desired: X set.
    pub fn desired(self) -> Exclusion {
        let desired = true;
        Exclusion {
            what: self,
            desired,
        }
    }
}

/// An exclusion, demanded or only desired.
#[derive(Clone, Debug, PartialEq, Eq, Hash)]
pub struct Exclusion {
    pub what: Excluded,
    /// It counts only where some path keeps all exclusions and the bound.
    pub desired: bool,
}

/// Why an EXRS can't be made, or bytes not be taken apart.
#[derive(Clone, Copy, Debug, PartialEq, Eq)]
pub enum ExrsError {
    Nothing,
    /// How many bytes it would have.
    TooLong(usize),
    Prefix(u8),
    /// How many bytes the IS-IS area has.
    Area(usize),
    /// The AS, which is nobody's.
    As(u32),
    /// Where a subobject stands that isn't whole or has a wrong form.
    Form(usize),
}

impl fmt::Display for ExrsError {
    fn fmt(&self, f: &mut fmt::Formatter) -> fmt::Result {
        match self {
            ExrsError::Nothing => write!(f, "an EXRS has one exclusion or more"),
            ExrsError::TooLong(bytes) => write!(
                f,
                "an EXRS has at most 252 bytes, not {bytes}; several add up"
            ),
            ExrsError::Prefix(length) => write!(f, "a prefix length is at most 32, not {length}"),
            ExrsError::Area(bytes) => write!(f, "an IS-IS area has 1 to 13 bytes, not {bytes}"),
            ExrsError::As(number) => write!(f, "AS {number} is nobody's"),
            ExrsError::Form(offset) => write!(f, "no EXRS of right form at offset {offset}"),
        }
    }
}

impl Error for ExrsError {}

/// An EXRS with these exclusions.
pub fn write_exrs(exclusions: &[Exclusion]) -> Result<Vec<u8>, ExrsError> {
    let mut exrs = vec![EXRS, 0, 0, 0];
    for exclusion in exclusions {
        exrs.extend(subobject(exclusion)?);
    }
    match exrs.len() {
        4 => Err(ExrsError::Nothing),
        length if length > MOST_BYTES => Err(ExrsError::TooLong(length)),
        length => {
            exrs[1] = length as u8;
            Ok(exrs)
        }
    }
}

fn subobject(exclusion: &Exclusion) -> Result<Vec<u8>, ExrsError> {
    let long = |kind, number: u32| [&[kind, 8, 0, 0][..], &number.to_be_bytes()].concat();
    let mut bytes = match &exclusion.what {
        Excluded::As(number) if nobodys(*number) => return Err(ExrsError::As(*number)),
        Excluded::As(number) => long(5, *number),
        Excluded::OspfArea(area) => long(6, *area),
        Excluded::IsisArea(area) if area.is_empty() || area.len() > MOST_AREA => {
            return Err(ExrsError::Area(area.len()));
        }
        Excluded::IsisArea(area) => {
            let whole = area_size(area.len());
            let mut bytes = [&[7, whole as u8, area.len() as u8, 0], &area[..]].concat();
            bytes.resize(whole, 0);
            bytes
        }
        Excluded::Nodes { prefix, .. } if *prefix > 32 => return Err(ExrsError::Prefix(*prefix)),
        Excluded::Nodes { address, prefix } => {
            [&[1, 8], &address.octets()[..], &[*prefix, NODE]].concat()
        }
    };
    if exclusion.desired {
        bytes[0] |= X;
    }
    Ok(bytes)
}

/// AS numbers that no network has: 0 (RFC 7607) and 23456 (RFC 6793).
fn nobodys(number: u32) -> bool {
    matches!(number, 0 | 23456)
}

/// The whole length of the subobject of an IS-IS area.
fn area_size(area: usize) -> usize {
    4 + area.div_ceil(4) * 4
}

/// All exclusions in EXRS that stand back to back, as a `Stop` has them.
pub fn read_exrs(bytes: &[u8]) -> Result<Vec<Exclusion>, ExrsError> {
    let mut exclusions = Vec::new();
    let mut at = 0;
    while at < bytes.len() {
        let whole = match bytes[at..] {
            [EXRS, length, _, _, ..] if length > 4 => bytes[at..].get(..length.into()),
            _ => None,
        };
        let end = at + whole.ok_or(ExrsError::Form(at))?.len();
        at += 4;
        while at < end {
            let (exclusion, length) = exclusion(&bytes[at..end]).ok_or(ExrsError::Form(at))?;
            exclusions.push(exclusion);
            at += length;
        }
    }
    Ok(exclusions)
}

/// The exclusion that these bytes begin with, if its form is right, and its length.
fn exclusion(bytes: &[u8]) -> Option<(Exclusion, usize)> {
    let &[first, length, ..] = bytes else {
        return None;
    };
    let length = usize::from(length);
    let what = match (first & !X, bytes.get(..length)?) {
        (1, &[_, _, a, b, c, d, prefix @ 0..=32, NODE]) => Excluded::Nodes {
            address: Ipv4Addr::new(a, b, c, d),
            prefix,
        },
        (5, &[_, _, _, _, a, b, c, d]) => Excluded::As(u32::from_be_bytes([a, b, c, d])),
        (6, &[_, _, _, _, a, b, c, d]) => Excluded::OspfArea(u32::from_be_bytes([a, b, c, d])),
        (7, [_, _, area, _, rest @ ..]) => {
            let area = usize::from(*area);
            let fits = (1..=MOST_AREA).contains(&area) && length == area_size(area);
            let (area, padding) = rest.split_at_checked(area).filter(|_| fits)?;
            if padding.iter().any(|&byte| byte != 0) {
                return None;
            }
            Excluded::IsisArea(area.to_vec())
        }
        (32, &[_, _, a, b]) => Excluded::As(u16::from_be_bytes([a, b]).into()),
        _ => return None,
    };
    if matches!(what, Excluded::As(number) if nobodys(number)) {
        return None;
    }
    let desired = first & X != 0;
    Some((Exclusion { what, desired }, length))
}
