//! Two ways to the same answer, timed in turns.

use std::fmt::Debug;
use std::hint::black_box;
use std::time::{Duration, Instant};

/// Odd, so that the median is one of the rounds.
const ROUNDS: usize = 301;
const WARM_UP: Duration = Duration::from_millis(100);
/// Long beside what it costs to read the clock.
const ROUND: Duration = Duration::from_millis(1);

/// Prints the time of one call of each and their ratio. Both must give the
/// same answer.
pub fn race<A: PartialEq + Debug>(name: &str, library: impl Fn() -> A, reference: impl Fn() -> A) {
    assert_eq!(library(), reference(), "{name}: answers");
    let (ours, theirs, calls) = in_turns(&library, &reference);
    println!(
        "{name}: library {:.2} us, reference {:.2} us, ratio {:.2} (median of {ROUNDS} rounds of {calls} calls)",
        ours * 1e6,
        theirs * 1e6,
        ours / theirs
    );
}

/// Prints the time of a call that does a part of what another does, beside the
/// other's.
pub fn share<A, B>(name: &str, part: impl Fn() -> A, whole: impl Fn() -> B) {
    let (part, whole, calls) = in_turns(&part, &whole);
    println!(
        "{name}: {:.2} us of {:.2} us, ratio {:.2} (median of {ROUNDS} rounds of {calls} calls)",
        part * 1e6,
        whole * 1e6,
        part / whole
    );
}

/// Seconds for one call of each, and how many calls a round had.
fn in_turns<A, B>(one: &impl Fn() -> A, other: &impl Fn() -> B) -> (f64, f64, u32) {
    let calls = calls_in_a_round(one).max(calls_in_a_round(other));
    let mut times = Vec::with_capacity(ROUNDS);
    let mut other_times = Vec::with_capacity(ROUNDS);
    // In turns, so that both meet the same load of the machine.
    for _ in 0..ROUNDS {
        times.push(time(one, calls));
        other_times.push(time(other, calls));
    }
    (median(times), median(other_times), calls)
}

/// Warms up and finds how many calls fill a round.
fn calls_in_a_round<A>(call: &impl Fn() -> A) -> u32 {
    let start = Instant::now();
    let mut calls = 0u32;
    while start.elapsed() < WARM_UP {
        black_box(call());
        calls += 1;
    }
    let rounds = start.elapsed().as_secs_f64() / ROUND.as_secs_f64();
    (f64::from(calls) / rounds).ceil() as u32
}

/// Seconds for one call.
fn time<A>(call: &impl Fn() -> A, calls: u32) -> f64 {
    let start = Instant::now();
    for _ in 0..calls {
        black_box(call());
    }
    start.elapsed().as_secs_f64() / f64::from(calls)
}

fn median(mut times: Vec<f64>) -> f64 {
    times.sort_by(f64::total_cmp);
    times[times.len() / 2]
}
