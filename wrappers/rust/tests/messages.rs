//! The wrapper on messages: document 01's request as a PCReq, its paths as
//! PCReps, and each refusal of a message.

mod common;

use common::*;
use std::net::Ipv4Addr;
use yachayniq::{read_pcrep, read_pcreq, write_pcrep, Answer, Call, Metric, Pcrep, Pcreq, Request};

const NO_PATH: &str = "03100008 01800000";
const TOTAL: Metric = Metric {
    kind: 2,
    flags: 2,
    bits: 0x41600000,
};

/// Document 01's request with more objects after it.
fn asked_with(objects: &[&str]) -> Vec<u8> {
    let model = &ASKED[8..];
    pcreq(&[&[model], objects].concat())
}

#[test]
fn requests_read() {
    let asked = bytes(ASKED);
    assert_eq!(asked_with(&[]), asked);
    let read = read_pcreq(&asked).unwrap();
    let expected = Pcreq {
        request_id: 7,
        rp_flags: 0,
        source: S,
        destination: Z,
        bandwidth_bits: 0x42C80000,
        metrics: vec![],
        include: &asked[40..],
        exclude: &[],
    };
    assert_eq!(read, expected);
    assert_eq!(read.bandwidth(), 100.0);

    // All flags, a TLV after the RP, and what isn't known, with P clear.
    let rp = "02120014 FFFFFFFF 80000001 00630004 01020304";
    let metrics = ["0610000C 0000FFFF 00000001", "0610000C 00000102 7F7FFFFF"];
    let odd = pcreq(&["09100004", XRO, metrics[0], ENDS, rp, RP, metrics[1]]);
    let read = read_pcreq(&odd).unwrap();
    assert_eq!((read.request_id, read.rp_flags), (0x80000001, 0x3F));
    assert_eq!((read.bandwidth_bits, read.include), (0, &[][..]));
    assert_eq!(read.exclude, bytes("0108C000 020C2001"));
    let expected = [Metric::new(255, 255, 1e-45), Metric::new(2, 1, f32::MAX)];
    assert_eq!(read.metrics, expected);
    assert_eq!((expected[0].bits, expected[1].value()), (1, f32::MAX));
}

/// The shortest paths of a PCReq, each of total 14.
#[track_caller]
fn listed(message: &[u8], expected: &[[Ipv4Addr; 4]]) {
    let w = w();
    let paths: Vec<_> = w.pcreq_paths(0, message).unwrap().collect();
    assert!(paths.iter().all(|path| path.total == 14));
    let addresses: Vec<_> = paths.into_iter().map(|path| path.addresses).collect();
    assert_eq!(addresses, expected);
}

#[test]
fn tree_and_paths() {
    let (w, asked) = (w(), bytes(ASKED));
    let request = Request {
        include: &asked[40..],
        bandwidth: 100.0,
        ..Request::new(S, Z)
    };
    assert_eq!(w.pcreq_tree(0, &asked), w.tree(&request));
    assert_eq!(w.pcreq_first(0, &asked), w.first(&request));
    listed(&asked, &EVERY);
    listed(&asked_with(&["0610000C 00000102 41600000"]), &EVERY);
    listed(&asked_with(&["0610000C 00000102 41500000"]), &[]);
    listed(&asked_with(&["0610000C 00000202 41500000"]), &EVERY);
    listed(&asked_with(&[XRO]), &EVERY[..1]);
    listed(&pcreq(&[RP, ENDS]), &[]);
    let after = |given: &[Ipv4Addr]| {
        let path = w.pcreq_next(0, &asked, given);
        path.map(|path| path.map(|path| path.addresses))
    };
    assert_eq!(after(&[S, P, T, Z]), Ok(Some(EVERY[0].to_vec())));
    assert_eq!(after(&EVERY[2]), Ok(None));
    assert_eq!(after(&[S, Z]), refusal(Call::PcreqNext, 33, 0));
    // From Q in domain 1 by AS 64498.
    let inside = pcreq(&[RP, "0412000C C000020C C0000263", "0A120008 2004FBF2"]);
    let paths = w.pcreq_paths(1, &inside).unwrap();
    let paths: Vec<_> = paths.map(|path| (path.addresses, path.total)).collect();
    assert_eq!(paths, [(vec![Q, T, Z], 11), (vec![Q, U, Z], 11)]);
}

/// A reply to request 7.
fn reply(answer: Answer, metrics: &[Metric]) -> Pcrep {
    Pcrep {
        request_id: 7,
        rp_flags: 0,
        answer,
        metrics: metrics.to_vec(),
    }
}

const fn no_path(nature: u8, c: bool) -> Answer {
    Answer::NoPath { nature, c }
}

#[test]
fn replies() {
    let (w, asked) = (w(), bytes(ASKED));
    let request = read_pcreq(&asked).unwrap();
    let mut paths = w.pcreq_paths(0, &asked).unwrap();
    for inner in [["0B", "16"], ["0C", "15"], ["0C", "16"]] {
        let path = paths.next().unwrap();
        let made = Pcrep::of(&request, &path);
        let reply = reply(Answer::Path(path.addresses), &[TOTAL]);
        assert_eq!(made, reply);
        let written = write_pcrep(&reply).unwrap();
        let expected = format!(
            "20040040 0212000C 00000000 00000007 07100024 0108C000 02012000 \
             0108C000 02{}2000 0108C000 02{}2000 0108C000 02632000 \
             0610000C 00000202 41600000",
            inner[0], inner[1]
        );
        assert_eq!(written, bytes(&expected));
        assert_eq!(read_pcrep(&written), Ok(reply));
    }
    assert_eq!(paths.next(), None);
    let rp_flags = 0x3F;
    let flagged = Pcreq {
        rp_flags,
        ..request
    };
    assert_eq!(Pcrep::none(&flagged), reply(no_path(0, false), &[]));

    let extremes = [Metric::new(255, 255, 1e-45), Metric::new(0, 0, f32::MAX)];
    for reply in [
        reply(no_path(255, true), &extremes),
        reply(no_path(0, false), &[TOTAL; 5459]),
        reply(Answer::Path(vec![]), &[]),
        reply(Answer::Path(vec![Ipv4Addr::BROADCAST; 8189]), &[]),
    ] {
        let reply = Pcrep {
            request_id: u32::MAX,
            rp_flags: 0x3F,
            ..reply
        };
        assert_eq!(read_pcrep(&write_pcrep(&reply).unwrap()), Ok(reply));
    }
    let mut reply = reply(no_path(1, true), &[]);
    assert_eq!(write_pcrep(&reply), Ok(pcrep(&[RP, NO_PATH])));
    reply.rp_flags = u32::MAX;
    let read = read_pcrep(&write_pcrep(&reply).unwrap()).unwrap();
    assert_eq!(read.rp_flags, 0x3F);
}

#[test]
fn requests_refused() {
    let w = w();
    let carried = |message: &[u8], number, place| {
        let tree = w.pcreq_tree(0, message);
        assert_eq!(tree, refusal(Call::PcreqTree, number, place));
        let first = refusal(Call::PcreqFirst, number, place);
        assert_eq!(w.pcreq_first(0, message), first);
        assert_eq!(w.pcreq_paths(0, message).map(|_| None), first);
        let next = w.pcreq_next(0, message, &EVERY[0]);
        assert_eq!(next, refusal(Call::PcreqNext, number, place));
    };
    let refused = |message: &[u8], number, place| {
        let read = read_pcreq(message);
        assert_eq!(read, refusal(Call::ReadPcreq, number, place));
        carried(message, number, place);
    };
    refused(&[], 36, 0);
    refused(&pcrep(&[RP, ENDS]), 36, 0);
    refused(&pcreq(&[RP, "04120008 C0000201"]), 37, 16);
    refused(&pcreq(&[RP, "04220004"]), 38, 16);
    refused(&pcreq(&[ENDS]), 39, 0);
    refused(&pcreq(&[RP, "04200004"]), 40, 0);
    refused(&pcreq(&[RP, ENDS, "05120008 7F800000"]), 21, 0);
    refused(&asked_with(&["0610000C 00000001 80000000"]), 21, 1);
    let zeros = "00".repeat(1028);
    refused(&pcreq(&[RP, ENDS, "0A120408", &zeros]), 22, 0);
    refused(&asked_with(&["1112040C 00000000", &zeros]), 22, 1);
    refused(&pcreq(&[RP, ENDS, "0A12000C 2004FBF1 2204FBF2"]), 24, 4);
    carried(&pcreq(&[RP, ENDS, "0A12000C 2004FBF1 2004FBF0"]), 30, 4);
    let asked = bytes(ASKED);
    assert_eq!(w.pcreq_tree(3, &asked), refusal(Call::PcreqTree, 20, 0));
    assert_eq!(w.pcreq_first(3, &asked), refusal(Call::PcreqFirst, 20, 0));
    let next = w.pcreq_next(3, &asked, &EVERY[0]);
    assert_eq!(next, refusal(Call::PcreqNext, 20, 0));
}

#[test]
fn replies_refused() {
    let refused = |objects: &[&str], number, place| {
        let read = read_pcrep(&pcrep(objects));
        assert_eq!(read, refusal(Call::ReadPcrep, number, place));
    };
    assert_eq!(read_pcrep(&bytes(ASKED)), refusal(Call::ReadPcrep, 36, 0));
    refused(&[RP, "03100004"], 37, 16);
    refused(&[ENDS, RP, NO_PATH], 38, 4);
    refused(&[NO_PATH], 39, 0);
    refused(&[RP, "0610000C 00000202 00000000"], 41, 0);
    refused(&[RP, NO_PATH, "0610000C 00000202 FFFFFFFF"], 21, 1);
    refused(&[RP, "07100008 2004FBF1"], 24, 0);
    refused(&[RP, "07100014 0108C000 02012000 8108C000 02632000"], 27, 8);

    let unwritten = |answer, metrics: &[Metric], number, place| {
        let written = write_pcrep(&reply(answer, metrics));
        assert_eq!(written, refusal(Call::WritePcrep, number, place));
    };
    unwritten(Answer::Path(vec![S; 8190]), &[], 37, 0);
    unwritten(no_path(0, false), &[TOTAL; 5460], 37, 0);
    unwritten(no_path(0, false), &[Metric::new(2, 2, -0.0)], 21, 1);
}
