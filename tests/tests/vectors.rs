//! Messages typed in by hand for profile W, from RFC 5440 and RFC 5521: the
//! library reads the requests, finds the paths, and writes the replies byte for
//! byte.

use reference::generate::PcRepFields;
use reference::{PcReq, Reply};
use tests::by_hand::messages::{hex, B, C};
use tests::by_hand::{B100, P, Q, S, T, U, Z};
use tests::pcrep::{self, BASE};
use tests::pcreq::{self, listing};

const W: &[u8] = include_bytes!("../../examples/w.dsp");

const REQUEST: &str = include_str!("../vectors/w-request.hex");
const BOUND: &str = include_str!("../vectors/w-request-bound.hex");
const EXCLUDE: &str = include_str!("../vectors/w-request-exclude.hex");
const NONE: &str = include_str!("../vectors/w-reply-none.hex");
const REPLIES: [&str; 3] = [
    include_str!("../vectors/w-reply-1.hex"),
    include_str!("../vectors/w-reply-2.hex"),
    include_str!("../vectors/w-reply-3.hex"),
];

/// The three paths that document 01 tells.
const PATHS: [[u32; 4]; 3] = [[S, P, U, Z], [S, Q, T, Z], [S, Q, U, Z]];

/// 14.0 and 13.0.
const F14: u32 = 0x4160_0000;
const F13: u32 = 0x4150_0000;

fn asked(message: &[u8]) -> PcReq<'_> {
    PcReq {
        profile: W,
        ingress: 0,
        message,
    }
}

/// All numbers of a first, then of each next, with the paths.
fn answers(message: &[u8]) -> Vec<(u32, [u32; 4], Vec<u32>)> {
    let mut all: Vec<(u32, [u32; 4], Vec<u32>)> = Vec::new();
    loop {
        let (mut path, mut numbers) = (vec![0; 4], [7; 4]);
        let number = match all.last() {
            None => pcreq::pcreq_first(&asked(message), &mut path, &mut numbers),
            Some((.., given)) => pcreq::pcreq_next(&asked(message), given, &mut path, &mut numbers),
        };
        all.push((number, numbers, path));
        if number != 0 {
            return all;
        }
    }
}

#[test]
fn requests_are_read() {
    let read = pcreq::read(&hex(REQUEST), "w-request").expect("accepted");
    assert_eq!(read.numbers, [1, 0, S, Z, B100, 0, 40, 8, 0, 0]);
    assert_eq!(read.metrics, []);
    let read = pcreq::read(&hex(BOUND), "w-request-bound").expect("accepted");
    assert_eq!(read.numbers, [2, 5, S, Z, B100, 1, 52, 8, 0, 0]);
    assert_eq!(read.metrics, [(2, B, F13)]);
    let read = pcreq::read(&hex(EXCLUDE), "w-request-exclude").expect("accepted");
    assert_eq!(read.numbers, [1, 0, S, Z, B100, 0, 44, 8, 12, 8]);
    assert_eq!(read.metrics, []);
}

/// From the request to its three replies, and back from each to its path.
#[test]
fn a_request_and_its_replies() {
    let request = hex(REQUEST);
    let read = pcreq::read(&request, "w-request").expect("accepted");
    let [request_id, rp_flags, ..] = read.numbers;
    let answers = answers(&request);
    assert_eq!(answers.len(), 4);
    assert_eq!(answers[3], (2, [0; 4], vec![0; 4]));
    for (((number, numbers, path), text), typed) in answers.iter().zip(REPLIES).zip(PATHS) {
        assert_eq!((*number, *numbers), (0, [0, 14, F14, 1]));
        assert_eq!(path[..], typed);
        let reply = Reply {
            request_id,
            rp_flags,
            addresses: path,
            kinds: &[2],
            flags: &[C],
            values: &[numbers[2]],
            ..BASE
        };
        let written = pcrep::write(&reply, "reply");
        assert_eq!(written, Ok(hex(text)));
        let fields = PcRepFields {
            request_id: 1,
            rp_flags: 0,
            said: Ok(typed.to_vec()),
            metrics: vec![(2, C, F14)],
        };
        assert_eq!(pcrep::read(&hex(text), "reply"), Ok(fields));
    }
}

/// No path, and the METRIC that can't be kept sent back.
#[test]
fn a_request_without_a_path() {
    let request = hex(BOUND);
    let read = pcreq::read(&request, "w-request-bound").expect("accepted");
    assert_eq!(answers(&request), [(1, [0; 4], vec![0; 4])]);
    let [(kind, flags, bits)] = read.metrics[..] else {
        panic!("one METRIC");
    };
    let reply = Reply {
        request_id: read.numbers[0],
        rp_flags: read.numbers[1],
        found: false,
        c_flag: true,
        kinds: &[kind],
        flags: &[flags],
        values: &[bits],
        ..BASE
    };
    assert_eq!(pcrep::write(&reply, "no path"), Ok(hex(NONE)));
    let fields = PcRepFields {
        request_id: 2,
        rp_flags: 5,
        said: Err((0, true)),
        metrics: vec![(2, B, F13)],
    };
    assert_eq!(pcrep::read(&hex(NONE), "no path"), Ok(fields));
}

#[test]
fn a_request_with_an_exclusion() {
    let request = hex(EXCLUDE);
    let (paths, end) = listing(&asked(&request), 4, 9);
    assert_eq!(paths, [(PATHS[0].to_vec(), 14, 1)]);
    assert_eq!(end, (2, [0; 4]));
}
