//! The form of an EXRS (RFC 5521): a subobject of an include list that carries
//! exclusions for one stretch, up to the entry of the next domain.

use crate::outcome::NotDone;
use crate::subobject::{check_form, read_form, List, Subobject};

pub const TYPE: u8 = 33;

/// Type, length, and two reserved bytes that aren't looked at.
const HEADER: usize = 4;

/// How long the EXRS is that `rest` begins with, if its form is right; else the
/// number, and its place in `rest`. There are four bytes or more, and the type
/// is the right one.
pub fn measure(rest: &[u8]) -> Result<usize, NotDone> {
    if rest[0] != TYPE {
        return NotDone::at(27, 0);
    }
    let length = usize::from(rest[1]);
    if length < HEADER {
        return NotDone::at(25, 0);
    }
    let Some(whole) = rest.get(..length) else {
        return NotDone::at(23, 0);
    };
    if length == HEADER {
        return NotDone::at(26, 0);
    }
    check_form(inside(whole), List::Exclude).map_err(|wrong| wrong.moved(HEADER))?;
    Ok(length)
}

fn inside(whole: &[u8]) -> &[u8] {
    &whole[HEADER..]
}

/// The exclusions inside an EXRS whose form is right.
pub fn exclusions(whole: &[u8]) -> Vec<Subobject<'_>> {
    read_form(inside(whole), List::Exclude).expect("its form is right")
}

/// The EXRS that stand back to back in `bytes`; none if these aren't whole EXRS
/// of right form.
pub fn split(bytes: &[u8]) -> Option<Vec<&[u8]>> {
    let mut all = Vec::new();
    let mut rest = bytes;
    while !rest.is_empty() {
        if rest.len() < HEADER || rest[0] != TYPE {
            return None;
        }
        let (whole, after) = rest.split_at(measure(rest).ok()?);
        all.push(whole);
        rest = after;
    }
    Some(all)
}
