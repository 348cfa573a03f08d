//! One case given to both programs, and how often each answer came up.

use std::collections::BTreeMap;
use std::fmt::{Debug, Display};
use std::ops::Range;

/// What `numbers` holds before a call, so that one not stored is noticed.
const OLD: u32 = 0xAAAA_AAAA;

/// A call with its inputs and the buffers to lend.
pub trait Case {
    /// The call's signature, which both programs have.
    type Call;
    /// Everything the call leaves.
    type Answer: PartialEq + Debug;

    const LIBRARY: Self::Call;
    const REFERENCE: Self::Call;

    /// Makes the call on fresh copies of the buffers.
    fn answer(&self, call: Self::Call) -> Self::Answer;
}

/// What one call leaves: the number it returns, the numbers it stores, and
/// every lent buffer from start to end.
#[derive(Clone, Debug, PartialEq, Eq)]
pub struct Answer<const N: usize, Buffers = ()> {
    pub number: u32,
    pub numbers: [u32; N],
    pub buffers: Buffers,
}

impl<const N: usize, Buffers> Answer<N, Buffers> {
    /// Lends `buffers` and the numbers to a call.
    pub fn of(mut buffers: Buffers, call: impl FnOnce(&mut Buffers, &mut [u32; N]) -> u32) -> Self {
        let mut numbers = [OLD; N];
        let number = call(&mut buffers, &mut numbers);
        Answer {
            number,
            numbers,
            buffers,
        }
    }

    /// Number and place; the place is the first number stored by every call.
    pub fn verdict(&self) -> (u32, u32) {
        (self.number, self.numbers[0])
    }
}

/// A buffer to lend, between two margins, so that a write outside it is noticed.
#[derive(Clone, Debug, PartialEq, Eq)]
pub struct Lent<T>(Vec<T>);

const MARGIN: usize = 8;

impl<T: Copy + PartialEq + From<u8>> Lent<T> {
    pub fn new(contents: &[T]) -> Self {
        let margin = [T::from(0x55); MARGIN];
        Lent([&margin[..], contents, &margin].concat())
    }

    pub fn buffer(&mut self) -> &mut [T] {
        let end = self.0.len() - MARGIN;
        &mut self.0[MARGIN..end]
    }

    pub fn contents(&self) -> &[T] {
        &self.0[MARGIN..self.0.len() - MARGIN]
    }

    /// Nothing differs from what it was `before`, margins included, but the
    /// first `written` elements of the buffer.
    pub fn kept_past(&self, written: usize, before: &Self) -> bool {
        let past = MARGIN + written;
        self.0.len() == before.0.len()
            && self.0[..MARGIN] == before.0[..MARGIN]
            && self.0[past..] == before.0[past..]
    }
}

/// The answer that both programs give; `which` says how to make the case again
/// if they differ.
#[track_caller]
pub fn compare<C: Case>(case: &C, which: impl Display) -> C::Answer {
    let library = case.answer(C::LIBRARY);
    let reference = case.answer(C::REFERENCE);
    assert!(
        library == reference,
        "{which}\n  library:   {library:?}\n  reference: {reference:?}"
    );
    library
}

/// The seeds of a run: from 0, or from YQ_SEED to try other cases.
pub fn seeds(count: u64) -> Range<u64> {
    let from =
        std::env::var("YQ_SEED").map_or(0, |seed| seed.parse().expect("YQ_SEED is a whole number"));
    from..from + count
}

/// How often each number came up, and at which places.
#[derive(Default)]
pub struct Counts(BTreeMap<u32, BTreeMap<u32, usize>>);

impl Counts {
    pub fn add(&mut self, (number, place): (u32, u32)) {
        *self.0.entry(number).or_default().entry(place).or_default() += 1;
    }

    /// Prints the counts, then holds the run to what it must have covered:
    /// the numbers `possible` and no other, each in ten cases or more.
    #[track_caller]
    pub fn cover(&self, run: &str, possible: &[u32]) {
        let cases_of = |places: &BTreeMap<u32, usize>| -> usize { places.values().sum() };
        let cases: usize = self.0.values().map(cases_of).sum();
        println!(
            "\n{run}: {cases} cases\n{:>8} {:>8} {:>8}",
            "number", "cases", "places"
        );
        for (number, places) in &self.0 {
            println!("{number:>8} {:>8} {:>8}", cases_of(places), places.len());
        }
        let found: Vec<u32> = self.0.keys().copied().collect();
        assert_eq!(found, possible, "{run}: the numbers that came up");
        for (number, places) in &self.0 {
            assert!(cases_of(places) >= 10, "{run}: {number} came up too rarely");
        }
    }

    /// How often a number came up.
    pub fn cases(&self, number: u32) -> usize {
        self.0
            .get(&number)
            .map_or(0, |places| places.values().sum())
    }

    /// At how many different places a number came up.
    pub fn places(&self, number: u32) -> usize {
        self.0.get(&number).map_or(0, BTreeMap::len)
    }
}

/// How often each kind of case came up, to hold a run to the kinds it is for.
#[derive(Default)]
pub struct Kinds(BTreeMap<String, usize>);

impl Kinds {
    pub fn add(&mut self, kind: impl Into<String>) {
        *self.0.entry(kind.into()).or_default() += 1;
    }

    /// Prints the counts; each of the kinds `wanted` came up ten times or more.
    #[track_caller]
    pub fn cover(&self, run: &str, wanted: &[String]) {
        println!("\n{run}");
        for (kind, cases) in &self.0 {
            println!("{cases:>8}  {kind}");
        }
        for kind in wanted {
            let cases = self.0.get(kind).copied().unwrap_or(0);
            assert!(cases >= 10, "{run}: {cases} cases of {kind}");
        }
    }
}
