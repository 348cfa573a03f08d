//! Series of calls beside first and next, one by one.

mod common;

use common::*;
use std::net::Ipv4Addr;
use yachayniq::{Ask, Call, Path, Refusal, Request};

const LONGEST: u32 = 6;

/// What the calls answer by themselves, each next given the path last handed
/// out, or before any an empty list.
fn one_by_one(request: &Request, asks: &[Ask]) -> Vec<Result<Option<Path>, Refusal>> {
    let mut last: Vec<Ipv4Addr> = Vec::new();
    let answer = |ask: &Ask| {
        let answer = match ask {
            Ask::First => w().first(request),
            Ask::Next => w().next(request, &last),
        };
        if let Ok(Some(path)) = &answer {
            last = path.addresses.clone();
        }
        let call = Call::Series;
        answer.map_err(|refusal| Refusal { call, ..refusal })
    };
    asks.iter().map(answer).collect()
}

fn every_series(request: Request) {
    for length in 0..=LONGEST {
        for which in 0..1 << length {
            let ask = |i: u32| [Ask::First, Ask::Next][which >> i & 1];
            let asks: Vec<Ask> = (0..length).map(ask).collect();
            assert_eq!(w().series(&request, &asks), one_by_one(&request, &asks));
        }
    }
}

#[test]
fn beside_single_calls() {
    let request = request();
    every_series(request);
    let exclude = &without(0, Q);
    every_series(Request { exclude, ..request });
    let exclude = &[without(0x80, P), without(0x80, Q)].concat();
    every_series(Request { exclude, ..request });
    for bound in [13.0, -1.0].map(Some) {
        every_series(Request { bound, ..request });
    }
    let include = &ONWARD[..7];
    every_series(Request { include, ..request });
}

/// Document 01's three paths, the end, and the paths from the first again.
#[test]
fn worked() {
    let path = |which: usize| {
        Ok(Some(Path {
            addresses: EVERY[which].to_vec(),
            total: 14,
            total_float: 14.0,
            round: 1,
        }))
    };
    use Ask::{First, Next};
    let answers = w().series(&request(), &[Next, First, Next, Next, Next, First]);
    let early = refusal(Call::Series, 33, 0);
    let expected = [early, path(0), path(1), path(2), Ok(None), path(0)];
    assert_eq!(answers, expected);
    let text = answers[0].as_ref().unwrap_err().to_string();
    let expected = "refused: number 33, place 0: a next before any path was handed out";
    assert_eq!(text, expected);
}
