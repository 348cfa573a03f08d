//! Many calls for first and next on one request, made in one call of the library.

use crate::paths::{found, unlike, up_to_last, MOST_ADDRESSES};
use crate::refusal::unless_refused;
use crate::{calls, Call, Path, Profile, Refusal, Request};

/// A call of a series.
#[derive(Clone, Copy, Debug, PartialEq, Eq)]
pub enum Ask {
    First = 0,
    /// After the path last handed out in the series.
    Next = 1,
}

/// Answer, place, total, float bits and round.
const CALL_NUMBERS: usize = 5;

impl Profile {
    /// What each call of a series answers: a path, or that there is none (after
    /// the last one handed out), or why it is refused. A next before any path
    /// was handed out is refused (33).
    pub fn series(&self, request: &Request, asks: &[Ask]) -> Vec<Result<Option<Path>, Refusal>> {
        let destination = request.destination.into();
        let kinds: Vec<u8> = asks.iter().map(|&ask| ask as u8).collect();
        let sizes = vec![MOST_ADDRESSES as u32; asks.len()];
        let mut buffers = vec![unlike(destination); MOST_ADDRESSES * asks.len()];
        let mut numbers = vec![0; CALL_NUMBERS * asks.len()];
        let number = calls::series(&self.0, request, &kinds, &sizes, &mut buffers, &mut numbers);
        assert_eq!(number, 0, "the kinds are known and the counts fit together");
        let paths = buffers.chunks_exact(MOST_ADDRESSES);
        let answers = numbers.chunks_exact(CALL_NUMBERS);
        let told = |(buffer, numbers)| told(up_to_last(destination, buffer), numbers);
        paths.zip(answers).map(told).collect()
    }
}

fn told(path: &[u32], numbers: &[u32]) -> Result<Option<Path>, Refusal> {
    let &[number, place, total, float_bits, round] = numbers else {
        unreachable!("a call has {CALL_NUMBERS} numbers");
    };
    if number == 1 || number == 2 {
        return Ok(None);
    }
    unless_refused(Call::Series, number, place)?;
    Ok(Some(found(path, [place, total, float_bits, round])))
}
