//! What a call answers when it isn't done: document 01's number and place.

/// Any answer but 0. Every other number is 0 then, so these two say it all.
#[derive(Clone, Copy, Debug, PartialEq, Eq)]
pub struct NotDone {
    pub number: u32,
    pub place: u32,
}

impl NotDone {
    /// The answer `number` at `place`, ready to be returned.
    pub fn at<T>(number: u32, place: usize) -> Result<T, NotDone> {
        Err(NotDone {
            number,
            place: place as u32,
        })
    }

    /// The same, its place counted from `offset` bytes earlier.
    pub fn moved(self, offset: usize) -> NotDone {
        NotDone {
            place: self.place + offset as u32,
            ..self
        }
    }
}

/// Stores the numbers of a call and returns document 01's number for it.
/// The first stored number is always the place.
pub fn settle<const N: usize>(result: Result<[u32; N], NotDone>, numbers: &mut [u32; N]) -> u32 {
    *numbers = [0; N];
    match result {
        Ok(stored) => {
            *numbers = stored;
            0
        }
        Err(not_done) => {
            numbers[0] = not_done.place;
            not_done.number
        }
    }
}
