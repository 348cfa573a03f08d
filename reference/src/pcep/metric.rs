//! METRIC objects, which all count: kind, flags and float bits of each.

use super::frame::{Object, Objects, Part, METRIC};
use crate::floats::in_range;
use crate::outcome::NotDone;
use crate::profile::u32_at;

/// Bytes of the whole object.
pub const LENGTH: usize = 12;

/// The flag that makes a METRIC a bound.
const B: u8 = 0x01;

/// What is known of a message's METRICs once all objects are met. They are
/// copied out only when nothing refuses the message, by a second walk.
#[derive(Clone, Copy, Debug, Default)]
pub struct Metrics {
    pub count: usize,
    /// The bits of the first one with B set.
    pub bound: Option<u32>,
    /// The bits of one that are out of range.
    pub out_of_range: Option<u32>,
    /// From the first one to the end of the message.
    objects: Part,
}

impl Metrics {
    pub fn meet(&mut self, object: &Object, message: &[u8]) -> Result<(), NotDone> {
        object.has(object.len() == LENGTH)?;
        let bits = u32_at(object.whole, 8);
        if self.count == 0 {
            self.objects = Part {
                offset: object.offset,
                length: message.len() - object.offset,
            };
        }
        if !in_range(bits) {
            self.out_of_range = Some(bits);
        }
        if object.whole[6] & B != 0 && self.bound.is_none() {
            self.bound = Some(bits);
        }
        self.count += 1;
        Ok(())
    }

    pub fn check_floats(&self) -> Result<(), NotDone> {
        match self.out_of_range {
            Some(_) => NotDone::at(21, 1),
            None => Ok(()),
        }
    }

    /// Into buffers with room for all of them.
    pub fn copy_to(&self, message: &[u8], kinds: &mut [u8], flags: &mut [u8], values: &mut [u32]) {
        let objects = Objects::from(self.objects.of(message), 0).flatten();
        let metrics = objects.filter(|object| object.class_type == METRIC);
        let lent = kinds.iter_mut().zip(flags).zip(values);
        for (object, ((kind, flag), value)) in metrics.zip(lent) {
            *flag = object.whole[6];
            *kind = object.whole[7];
            *value = u32_at(object.whole, 8);
        }
    }
}
