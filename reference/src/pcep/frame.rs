//! The frame of a message: its header (36), its objects in turn (37), and what
//! becomes of an object that isn't known (38).

use crate::outcome::NotDone;
use crate::profile::u16_at;

/// Message types.
pub const PCREQ: u8 = 3;
pub const PCREP: u8 = 4;

pub const VERSION: u8 = 1;

/// Bytes of the common header, and of each object's.
pub const HEADER: usize = 4;

/// The bit of an object header's second byte that says that the object must be
/// known.
pub const P: u8 = 0x02;

/// An object's class and type, as the first byte and the upper half of the
/// second.
pub type ClassType = (u8, u8);

pub const RP: ClassType = (2, 1);
pub const NO_PATH: ClassType = (3, 1);
pub const END_POINTS: ClassType = (4, 1);
pub const BANDWIDTH: ClassType = (5, 1);
pub const METRIC: ClassType = (6, 1);
pub const ERO: ClassType = (7, 1);
pub const IRO: ClassType = (10, 1);
pub const XRO: ClassType = (17, 1);

/// The flags of an RP that are fields: O, B, R and Pri.
pub const RP_FLAGS: u32 = 0x3F;

/// An object whose length keeps to what holds for all of them.
#[derive(Clone, Copy, Debug)]
pub struct Object<'a> {
    pub class_type: ClassType,
    /// Where it begins in the message.
    pub offset: usize,
    /// All its bytes, the header too.
    pub whole: &'a [u8],
}

impl Object<'_> {
    /// 37 unless the object's own length is right.
    pub fn has(&self, right: bool) -> Result<(), NotDone> {
        match right {
            true => Ok(()),
            false => NotDone::at(37, self.offset),
        }
    }

    pub fn len(&self) -> usize {
        self.whole.len()
    }

    /// An object that isn't known is skipped, or with P set refused.
    pub fn skip(&self) -> Result<(), NotDone> {
        match self.whole[1] & P {
            0 => Ok(()),
            _ => NotDone::at(38, self.offset),
        }
    }
}

/// 36 unless the header is right for a message of this type. Its flags aren't
/// looked at.
pub fn check_header(message: &[u8], message_type: u8) -> Result<(), NotDone> {
    let right = message.len() >= HEADER
        && message[0] >> 5 == VERSION
        && message[1] == message_type
        && usize::from(u16_at(message, 2)) == message.len()
        && message.len().is_multiple_of(4);
    match right {
        true => Ok(()),
        false => NotDone::at(36, 0),
    }
}

/// The objects from a place in the message on, up to its end.
pub struct Objects<'a> {
    message: &'a [u8],
    offset: usize,
}

impl<'a> Objects<'a> {
    pub fn from(message: &'a [u8], offset: usize) -> Objects<'a> {
        Objects { message, offset }
    }
}

impl<'a> Iterator for Objects<'a> {
    type Item = Result<Object<'a>, NotDone>;

    fn next(&mut self) -> Option<Self::Item> {
        let offset = self.offset;
        let rest = &self.message[offset..];
        if rest.is_empty() {
            return None;
        }
        if rest.len() < HEADER {
            return Some(NotDone::at(37, offset));
        }
        let length = usize::from(u16_at(rest, 2));
        if length < HEADER || !length.is_multiple_of(4) || length > rest.len() {
            return Some(NotDone::at(37, offset));
        }
        self.offset += length;
        Some(Ok(Object {
            class_type: (rest[0], rest[1] >> 4),
            offset,
            whole: &rest[..length],
        }))
    }
}

/// A run of the message's bytes; 0 and 0 where there is none.
#[derive(Clone, Copy, Debug, Default)]
pub struct Part {
    pub offset: usize,
    pub length: usize,
}

impl Part {
    /// What stands in an object after its first `skipped` bytes.
    pub fn after(object: &Object, skipped: usize) -> Part {
        Part {
            offset: object.offset + skipped,
            length: object.len() - skipped,
        }
    }

    pub fn of<'a>(&self, message: &'a [u8]) -> &'a [u8] {
        &message[self.offset..self.offset + self.length]
    }
}
