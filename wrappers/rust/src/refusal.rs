//! What the library refuses.

use crate::numbers::{meaning, Call};
use std::error::Error;
use std::fmt;

/// The number of a refusal, its place, and the call that refused, which decides
/// what the number means.
#[derive(Clone, Copy, Debug, PartialEq, Eq)]
pub struct Refusal {
    pub number: u32,
    pub place: u32,
    pub call: Call,
}

impl Refusal {
    /// What the number means, and what the place counts.
    pub fn meaning(&self) -> &'static str {
        meaning(self.call, self.number, self.place)
    }
}

impl fmt::Display for Refusal {
    fn fmt(&self, f: &mut fmt::Formatter) -> fmt::Result {
        let Refusal { number, place, .. } = self;
        write!(
            f,
            "refused: number {number}, place {place}: {}",
            self.meaning()
        )
    }
}

impl Error for Refusal {}

pub(crate) fn unless_refused(call: Call, number: u32, place: u32) -> Result<(), Refusal> {
    match number {
        0 => Ok(()),
        _ => Err(Refusal {
            number,
            place,
            call,
        }),
    }
}
