//! A PCRep that is read: numbers 36 to 39, 41, and the form of its ERO.

use super::frame::{
    check_header, Object, Objects, Part, ERO, HEADER, METRIC, NO_PATH, PCREP, RP, RP_FLAGS,
};
use super::metric::Metrics;
use crate::outcome::NotDone;
use crate::profile::{u16_at, u32_at};

/// The flag C of a NO-PATH.
pub const C: u16 = 0x8000;

/// The one subobject of an ERO that is taken: type 1, L clear.
pub const IPV4: u8 = 1;
pub const IPV4_LENGTH: usize = 8;
pub const WHOLE_PREFIX: u8 = 32;

/// What a PCRep says: of ERO and NO-PATH the one that comes first counts.
#[derive(Clone, Copy, Debug)]
pub enum Said {
    /// The subobjects of an ERO.
    Path(Part),
    NoPath {
        nature: u8,
        c_flag: bool,
    },
}

/// The fields of a PCRep.
#[derive(Clone, Copy, Debug)]
pub struct Answered {
    pub request_id: u32,
    pub rp_flags: u32,
    pub said: Said,
    pub metrics: Metrics,
}

impl Answered {
    /// What stands in the message, or the first thing wrong with it.
    pub fn read(message: &[u8]) -> Result<Answered, NotDone> {
        check_header(message, PCREP)?;
        let (mut rp, mut said) = (None, None);
        let mut metrics = Metrics::default();
        for object in Objects::from(message, HEADER) {
            let object = object?;
            match object.class_type {
                RP => {
                    object.has(object.len() >= 12)?;
                    let fields = (u32_at(object.whole, 8), u32_at(object.whole, 4) & RP_FLAGS);
                    rp = rp.or(Some(fields));
                }
                ERO => said = said.or(Some(Said::Path(Part::after(&object, 4)))),
                NO_PATH => {
                    object.has(object.len() >= 8)?;
                    said = said.or(Some(no_path(&object)));
                }
                METRIC => metrics.meet(&object, message)?,
                _ => object.skip()?,
            }
        }
        let Some((request_id, rp_flags)) = rp else {
            return NotDone::at(39, 0);
        };
        let Some(said) = said else {
            return NotDone::at(41, 0);
        };
        metrics.check_floats()?;
        if let Said::Path(ero) = said {
            check_ero(ero.of(message))?;
        }
        Ok(Answered {
            request_id,
            rp_flags,
            said,
            metrics,
        })
    }
}

fn no_path(object: &Object) -> Said {
    Said::NoPath {
        nature: object.whole[4],
        c_flag: u16_at(object.whole, 5) & C != 0,
    }
}

/// Each subobject is an address with prefix length 32. The byte after that
/// isn't looked at.
fn check_ero(ero: &[u8]) -> Result<(), NotDone> {
    let (subobjects, rest) = ero.as_chunks::<IPV4_LENGTH>();
    let wrong = subobjects
        .iter()
        .position(|subobject| !matches!(subobject, [IPV4, 8, _, _, _, _, WHOLE_PREFIX, _]));
    let right = wrong.unwrap_or(subobjects.len());
    if wrong.is_none() && rest.is_empty() {
        return Ok(());
    }
    let offset = right * IPV4_LENGTH;
    NotDone::at(wrong_in_form(&ero[offset..]), offset)
}

/// The number of a subobject that isn't right, in the order of an include
/// list's checks; `rest` begins with it.
fn wrong_in_form(rest: &[u8]) -> u32 {
    if rest.len() < 4 {
        23
    } else if rest[0] & 0x7F != IPV4 {
        24
    } else if rest[0] & 0x80 != 0 {
        27
    } else if usize::from(rest[1]) != IPV4_LENGTH {
        25
    } else if rest.len() < IPV4_LENGTH {
        23
    } else {
        26
    }
}

/// The addresses of an ERO that is right in form.
pub fn addresses(ero: &[u8]) -> impl Iterator<Item = u32> + '_ {
    let (subobjects, _) = ero.as_chunks::<IPV4_LENGTH>();
    subobjects.iter().map(|subobject| u32_at(subobject, 2))
}
