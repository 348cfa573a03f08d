//! PCReqs that the wrapper writes, and the requests that they carry.

mod common;

use common::*;
use std::net::Ipv4Addr;
use yachayniq::{read_pcreq, write_pcreq, Call, Metric, Path, Pcreq, Request};

/// What is written reads back as the same fields, and its objects stand in
/// order, each with P set, and none is empty.
#[track_caller]
fn reads_back(asked: &Pcreq) -> Vec<u8> {
    let written = write_pcreq(asked).unwrap();
    let expected = Pcreq {
        rp_flags: asked.rp_flags & 0x3F,
        ..asked.clone()
    };
    assert_eq!(read_pcreq(&written), Ok(expected));
    assert_eq!(written[8..12], (asked.rp_flags & 0x3F).to_be_bytes());
    let (mut rest, mut last) = (&written[4..], 0);
    while let [class, bits, high, low, ..] = *rest {
        assert_eq!(bits, 0x12);
        assert!(class != 5 || asked.bandwidth_bits != 0);
        assert!(class != 10 || !asked.include.is_empty());
        assert!(class != 17 || !asked.exclude.is_empty());
        assert!(class > last || class == 6, "{class} after {last}");
        last = class;
        rest = &rest[usize::from(u16::from_be_bytes([high, low]))..];
    }
    written
}

fn w_asked() -> Pcreq<'static> {
    Pcreq::of(1, &request())
}

#[test]
fn vectors() {
    let vector = bytes(include_str!("../../../tests/vectors/w-request.hex"));
    assert_eq!(reads_back(&w_asked()), vector);
    let bounded = Pcreq {
        request_id: 2,
        rp_flags: 5,
        metrics: vec![Metric::new(2, 1, 13.0)],
        ..w_asked()
    };
    let vector = bytes(include_str!("../../../tests/vectors/w-request-bound.hex"));
    assert_eq!(reads_back(&bounded), vector);
    // This vector's objects stand in another order, some with P clear.
    let vector = bytes(include_str!("../../../tests/vectors/w-request-exclude.hex"));
    let written = reads_back(&read_pcreq(&vector).unwrap());
    let [rp, bandwidth] = ["0212000C 00000000 00000001", "05120008 42C80000"];
    let iro = "0A12000C 2004FBF1 2004FBF2";
    assert_eq!(written, pcreq(&[rp, ENDS, bandwidth, iro, XRO]));
}

#[test]
fn generated() {
    let drawn = &mut Drawn::new(3);
    for _ in 0..20_000 {
        let (include, exclude) = (drawn.include(), drawn.list(0x80));
        reads_back(&drawn.pcreq(&include, &exclude));
    }
}

#[test]
fn longest() {
    let mut asked = w_asked();
    asked.metrics = vec![Metric::new(255, 255, f32::MAX); 5457];
    assert_eq!(reads_back(&asked).len(), 65_532);
    asked.metrics.push(Metric::new(1, 0, 0.0));
    assert_eq!(write_pcreq(&asked), refusal(Call::WritePcreq, 37, 0));
    let list = &ONWARD[..4].repeat(256);
    let asked = Pcreq {
        include: list,
        exclude: list,
        ..w_asked()
    };
    assert_eq!(reads_back(&asked).len(), 28 + 8 + 4 + 1024 + 8 + 1024);
}

#[track_caller]
fn refused(asked: Pcreq, number: u32, place: u32) {
    let expected = refusal(Call::WritePcreq, number, place);
    assert_eq!(write_pcreq(&asked), expected);
}

#[test]
fn refusals() {
    let zeros = [0; 70_000];
    let wrong = [32, 4, 0xFB, 0xF1, 34, 4, 0, 0];
    for (list, number, places) in [
        (&zeros[..6], 37, [0, 0]),
        (&zeros, 37, [0, 0]),
        (&zeros[..65_536], 37, [0, 0]),
        (&zeros[..65_496], 37, [0, 0]),
        (&zeros[..65_476], 22, [0, 1]),
        (&zeros[..1028], 22, [0, 1]),
        (&zeros[..1024], 24, [0, 0]),
        (&wrong, 24, [4, 4]),
    ] {
        let include = list;
        refused(
            Pcreq {
                include,
                ..w_asked()
            },
            number,
            places[0],
        );
        let exclude = list;
        refused(
            Pcreq {
                exclude,
                ..w_asked()
            },
            number,
            places[1],
        );
    }
    let include = &[32, 4, 0xFB, 0xF1, 0xA0, 4, 0xFB, 0xF2];
    refused(
        Pcreq {
            include,
            ..w_asked()
        },
        27,
        4,
    );
    let include = &[33, 4, 0, 0];
    refused(
        Pcreq {
            include,
            ..w_asked()
        },
        26,
        0,
    );
    let exclude = &[33, 8, 0, 0, 32, 4, 0xFB, 0xF1];
    refused(
        Pcreq {
            exclude,
            ..w_asked()
        },
        24,
        0,
    );
    let exclude = &[1, 8, 192, 0, 2, 12, 32, 0];
    refused(
        Pcreq {
            exclude,
            ..w_asked()
        },
        26,
        0,
    );
    let metrics = vec![Metric::new(1, 0, 0.0); 100_000];
    refused(
        Pcreq {
            metrics,
            ..w_asked()
        },
        37,
        0,
    );
    for bits in [0x7F80_0000, 0x8000_0000, u32::MAX] {
        let bandwidth_bits = bits;
        refused(
            Pcreq {
                bandwidth_bits,
                ..w_asked()
            },
            21,
            0,
        );
        let (kind, flags) = (1, 0);
        let metrics = vec![Metric::new(1, 0, 0.0), Metric { kind, flags, bits }];
        refused(
            Pcreq {
                metrics,
                ..w_asked()
            },
            21,
            1,
        );
    }
}

/// The bound that counts is the first METRIC with that flag, of any type.
#[test]
fn bounds() {
    let metrics = [
        Metric::new(2, 2, 12.0),
        Metric::new(3, 0x81, 13.0),
        Metric::new(2, 1, 14.0),
    ];
    let mut asked = w_asked();
    assert_eq!(asked.request(0).bound, None);
    asked.metrics = metrics[..1].to_vec();
    assert_eq!(asked.request(0).bound, None);
    asked.metrics = metrics.to_vec();
    let carried = asked.request(3);
    assert_eq!((carried.ingress, carried.bound), (3, Some(13.0)));
    assert_eq!((carried.source, carried.destination), (S, Z));
    assert_eq!(
        (carried.bandwidth, carried.include, carried.exclude),
        (100.0, ONWARD, &[][..])
    );
    let made = Pcreq::of(9, &carried);
    let expected = vec![Metric::new(2, 1, 13.0)];
    assert_eq!(
        (made.request_id, made.rp_flags, made.metrics),
        (9, 0, expected)
    );
}

/// A request, written as a PCReq and read, has the paths that it has itself, and
/// that its message has.
#[test]
fn requests() {
    let w = w();
    let carried = |request: Request, expected: &[Vec<Ipv4Addr>]| {
        let message = reads_back(&Pcreq::of(7, &request));
        let again = read_pcreq(&message).unwrap().request(request.ingress);
        let paths: Vec<Path> = w.paths(&request).unwrap().collect();
        assert!(w.paths(&again).unwrap().eq(paths.iter().cloned()));
        let of_message = w.pcreq_paths(request.ingress, &message).unwrap();
        assert!(of_message.eq(paths.iter().cloned()));
        let addresses: Vec<_> = paths.into_iter().map(|path| path.addresses).collect();
        assert_eq!(addresses, expected);
    };
    let request = request();
    let every = EVERY.map(Vec::from);
    carried(request, &every);
    let exclude = &without(0, Q);
    carried(Request { exclude, ..request }, &every[..1]);
    let bound = Some(14.0);
    carried(Request { bound, ..request }, &every);
    let bound = Some(13.0);
    carried(Request { bound, ..request }, &[]);
    let inside = Request {
        ingress: 1,
        include: &ONWARD[4..],
        ..Request::new(Q, Z)
    };
    carried(inside, &[vec![Q, T, Z], vec![Q, U, Z]]);
}
