//! A series of calls for first and next: the library against document 01's book
//! and the reference's own run, on series of any calls with any buffers; and
//! arguments that don't fit together.

use reference::generate::{self, Random, RequestCase};
use reference::Call::{self, First, Next};
use reference::{Outcome, Request};
use std::collections::BTreeMap;
use tests::by_hand::{ask, profile_w, P, Q, S, SHORT, T, U, Z};
use tests::compare::{seeds, Counts, Kinds, Lent};
use tests::paths::{self, path_length};
use tests::series::{kinds_of, series, SeriesCase, MALFORMED, NUMBERS};
use tests::{stack, wrong};

/// Up to 40 calls with buffers of any size, mostly beginning with a first.
fn any_calls(random: &mut Random, length: usize) -> (Vec<Call>, Vec<Vec<u32>>) {
    let count = random.between(0, 40);
    let firsts = random.pick(&[0, 1, 1, 2, 6]);
    let tight = random.chance(1, 3);
    let mut calls = Vec::with_capacity(count);
    let mut buffers = Vec::with_capacity(count);
    for i in 0..count {
        let opens = i == 0 && random.chance(7, 8);
        let is_first = opens || random.chance(firsts, 12);
        calls.push(if is_first { First } else { Next });
        let capacity = match random.below(20) {
            _ if tight => length,
            0 => random.below(60),
            _ => random.capacity(length),
        };
        buffers.push(random.words(capacity));
    }
    (calls, buffers)
}

/// Half of the requests are small and accepted, the others of any kind.
fn any_request(random: &mut Random) -> RequestCase {
    let seed = random.step() >> 1;
    match random.chance(1, 2) {
        true => generate::small_request_case(seed),
        false => generate::request_case(seed),
    }
}

#[test]
fn any_series() {
    let mut counts = Counts::default();
    let mut kinds = Kinds::default();
    for seed in seeds(12_000) {
        let random = &mut Random::new(seed, 113);
        let case = any_request(random);
        let request = case.request();
        let length = path_length(&request);
        let (calls, buffers) = any_calls(random, length.max(2));
        let case = SeriesCase {
            request,
            calls: &calls,
            buffers: &buffers,
        };
        let (outcomes, _) = case.agreed(format_args!("seed {seed}"));
        for (call, outcome) in calls.iter().zip(&outcomes) {
            counts.add((outcome.number, outcome.numbers[0]));
            if outcome.number < 10 || outcome.number > 32 {
                kinds.add(format!("{call:?} {}", outcome.number));
            }
        }
        kinds.add(in_a_row(&outcomes));
    }
    let checks: Vec<u32> = (10..=32).collect();
    counts.cover(
        "series, any",
        &[&[0, 1, 2], &checks[..], &[33, 34]].concat(),
    );
    let answers = [
        "First 0", "First 1", "First 34", "Next 0", "Next 2", "Next 33", "Next 34",
    ];
    let runs = [
        "no path",
        "up to 4 paths",
        "up to 19 paths",
        "20 paths or more",
    ];
    let wanted: Vec<String> = answers
        .iter()
        .chain(&runs)
        .map(|kind| kind.to_string())
        .collect();
    kinds.cover("series, any", &wanted);
}

/// How many paths a series handed out.
fn in_a_row(outcomes: &[Outcome]) -> &'static str {
    match outcomes
        .iter()
        .filter(|outcome| outcome.number == 0)
        .count()
    {
        0 => "no path",
        1..=4 => "up to 4 paths",
        5..=19 => "up to 19 paths",
        _ => "20 paths or more",
    }
}

/// A series leaves what the library's own calls leave, made one by one.
#[test]
fn a_series_is_its_calls() {
    for seed in seeds(3_000) {
        let random = &mut Random::new(seed, 114);
        let case = any_request(random);
        let request = case.request();
        let length = path_length(&request);
        let (calls, buffers) = any_calls(random, length.max(2));
        let mut last_written = Vec::new();
        let mut one_by_one = (Vec::new(), buffers.clone());
        for (call, buffer) in calls.iter().zip(&mut one_by_one.1) {
            let mut numbers = [7; 4];
            let number = match call {
                First => paths::first(&request, buffer, &mut numbers),
                Next => paths::next(&request, &last_written, buffer, &mut numbers),
            };
            if number == 0 {
                last_written = buffer[..length].to_vec();
            }
            one_by_one.0.push(Outcome { number, numbers });
        }
        let case = SeriesCase {
            request,
            calls: &calls,
            buffers: &buffers,
        };
        let spare = random.below(9);
        assert_eq!(case.run(spare, seed), one_by_one, "seed {seed}");
    }
}

/// Document 01's words for the book, followed by hand on profile W.
#[test]
fn worked_series_on_profile_w() {
    let w = profile_w();
    let calls = [
        Next, First, Next, Next, Next, Next, First, Next, First, Next,
    ];
    let sizes = [4, 4, 5, 3, 4, 4, 3, 9, 4, 4];
    let buffers = sizes.map(|size| vec![9; size]);
    let case = SeriesCase {
        request: ask(&w, &SHORT),
        calls: &calls,
        buffers: &buffers,
    };
    let (outcomes, left) = case.agreed("W");
    let numbers: Vec<u32> = outcomes.iter().map(|outcome| outcome.number).collect();
    assert_eq!(numbers, [33, 0, 0, 34, 0, 2, 34, 2, 0, 0]);
    for outcome in &outcomes {
        let done = outcome.number == 0;
        let expected = match done {
            true => [0, 14, 0x4160_0000, 1],
            false => [0; 4],
        };
        assert_eq!(outcome.numbers, expected);
    }
    let mut expected = buffers.clone();
    expected[1] = vec![S, P, U, Z];
    expected[2] = vec![S, Q, T, Z, 9];
    expected[4] = vec![S, Q, U, Z];
    expected[8] = vec![S, P, U, Z];
    expected[9] = vec![S, Q, T, Z];
    assert_eq!(left, expected);
}

/// A thousand calls among some 2^58 paths, with a first again in the middle.
#[test]
fn a_long_series() {
    let case = generate::equal_paths_request();
    let calls: Vec<Call> = (0..1_000)
        .map(|i| if i % 700 == 0 { First } else { Next })
        .collect();
    let buffers: Vec<Vec<u32>> = (0..1_000).map(|i| vec![i; 17 + i as usize % 3]).collect();
    let case = SeriesCase {
        request: case.request(),
        calls: &calls,
        buffers: &buffers,
    };
    let (outcomes, left) = case.run(0, "long");
    assert!((&outcomes, &left) == (&case.book().0, &case.book().1));
    assert!(outcomes.iter().all(|outcome| outcome.number == 0));
    assert_eq!(left[0][..17], left[700][..17]);
}

/// A refused request is refused by every call, whatever its kind and buffer.
#[test]
fn each_call_gives_the_refusal() {
    let calls = [Next, First, First, Next];
    let buffers = [17, 0, 17, 3].map(|size| vec![9; size]);
    let mut counts = Counts::default();
    wrong::combinations(40, |request, told| {
        let Some((number, place)) = told else { return };
        let case = SeriesCase {
            request: *request,
            calls: &calls,
            buffers: &buffers,
        };
        let (outcomes, left) = case.run(1, format_args!("{told:?}: {request:?}"));
        let numbers = [place, 0, 0, 0];
        assert_eq!(outcomes, [Outcome { number, numbers }; 4], "{request:?}");
        assert_eq!(left, buffers, "{request:?}");
        counts.add((number, place));
    });
    let possible: Vec<u32> = (10..=32).chain([42]).collect();
    counts.cover("series, refused requests", &possible);
}

// Arguments that don't fit together.

/// The number, and whether anything was written.
fn malformed(request: &Request, kinds: &[u8], sizes: &[u32], counts: [usize; 2]) -> (u32, bool) {
    let mut buffers = Lent::new(&vec![0xAAAA_AAAA; counts[0]]);
    let mut numbers = Lent::new(&vec![0xAAAA_AAAA; counts[1]]);
    let before = (buffers.clone(), numbers.clone());
    let number = series(request, kinds, sizes, buffers.buffer(), numbers.buffer());
    (number, (buffers, numbers) != before)
}

/// Every count around the right ones, and every kind at every place.
#[test]
fn counts_and_kinds() {
    let w = profile_w();
    let refused = Request {
        ingress: 3,
        ..ask(&w, &SHORT)
    };
    let mut found: BTreeMap<u32, usize> = BTreeMap::new();
    for request in [ask(&w, &SHORT), refused] {
        for calls in 0..4usize {
            for sizes_count in 0..6 {
                let sizes: Vec<u32> = (0..sizes_count).map(|i| [4, 0, 5, 3, 4][i]).collect();
                let whole: u32 = sizes.iter().sum();
                for buffers in whole.saturating_sub(2)..whole + 3 {
                    let needed = NUMBERS * calls;
                    for numbers in needed.saturating_sub(6)..needed + 3 {
                        let kinds = vec![0; calls];
                        let lent = [buffers as usize, numbers];
                        let fits = calls == sizes_count && buffers == whole && numbers >= needed;
                        let expected = if fits {
                            (0, calls > 0)
                        } else {
                            (MALFORMED, false)
                        };
                        let answer = malformed(&request, &kinds, &sizes, lent);
                        assert_eq!(answer, expected, "{calls} calls, {sizes:?}, {lent:?}");
                        *found.entry(answer.0).or_default() += 1;
                    }
                }
            }
        }
        for at in 0..5 {
            for kind in 0..=255 {
                let mut kinds = [0, 1, 1, 0, 1];
                kinds[at] = kind;
                let answer = malformed(&request, &kinds, &[4; 5], [20, 25]);
                let expected = if kind > 1 {
                    (MALFORMED, false)
                } else {
                    (0, true)
                };
                assert_eq!(answer, expected, "{kinds:?}");
                *found.entry(answer.0).or_default() += 1;
            }
        }
    }
    println!("\nseries, counts and kinds: {found:?}");
}

/// Sizes whose sum would be the count if it were taken in 32 bits.
#[test]
fn sizes_that_add_up_to_more_than_32_bits() {
    let w = profile_w();
    for sizes in [
        &[u32::MAX, 5][..],
        &[5, u32::MAX],
        &[1 << 31, 1 << 31, 4],
        &[4, u32::MAX, 1],
        &[u32::MAX, u32::MAX, 6],
    ] {
        let kinds = vec![0; sizes.len()];
        let lent = [4, NUMBERS * sizes.len()];
        let answer = malformed(&ask(&w, &SHORT), &kinds, sizes, lent);
        assert_eq!(answer, (MALFORMED, false), "{sizes:?}");
    }
}

#[test]
fn stack_of_at_most_16_kib() {
    let used = |request: Request, calls: &[Call], size: u32| {
        let (kinds, sizes) = (kinds_of(calls), vec![size; calls.len()]);
        let mut buffers = vec![0; calls.len() * size as usize];
        let mut numbers = vec![0; NUMBERS * calls.len()];
        stack::bytes_used(|| _ = series(&request, &kinds, &sizes, &mut buffers, &mut numbers))
    };
    let (equal, largest) = (
        generate::equal_paths_request(),
        generate::largest_request(4),
    );
    let calls = [First, Next, Next, First, Next];
    let large = [
        used(equal.request(), &calls, 17),
        used(largest.request(), &calls, 17),
    ];
    let generated = (0..500).map(|seed| {
        let case = generate::request_case(seed);
        used(case.request(), &calls, 17)
    });
    let many = used(equal.request(), &[Next; 40], 0);
    let most = large.into_iter().chain(generated).chain([many]).max();
    println!("\nseries: {} bytes of stack", most.unwrap_or(0));
    assert!(most.is_some_and(|bytes| bytes <= 16 * 1024));
}
