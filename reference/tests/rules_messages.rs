//! The rules for reading a PCReq (document 02's request [3]), on messages typed
//! in by hand. Those for the calls through one are in `rules_carried.rs`, those
//! for a PCRep in `rules_replies.rs`.

use crate::common;
use common::messages::*;
use common::{OLD, S, SHORT, Z};

/// Kind, flags and bits of a METRIC.
type Metric = (u8, u8, u32);

/// All numbers but the place, and the METRICs; or number and place.
type Read = Result<([u32; 10], Vec<Metric>), (u32, u32)>;

/// A reading into buffers with room for this many METRICs.
fn read_into(message: &[u8], [kinds, flags, values]: [usize; 3]) -> Read {
    let (mut kinds, mut flags) = (vec![0xAA; kinds], vec![0xAA; flags]);
    let (mut values, mut numbers) = (vec![OLD; values], [7; 11]);
    let number = reference::read_pcreq(message, &mut kinds, &mut flags, &mut values, &mut numbers);
    let count = numbers[6] as usize;
    assert!(kinds[count..]
        .iter()
        .chain(&flags[count..])
        .all(|&byte| byte == 0xAA));
    assert!(values[count..].iter().all(|&value| value == OLD));
    let [place, others @ ..] = numbers;
    if number != 0 {
        assert_eq!(others, [0; 10]);
        return Err((number, place));
    }
    assert_eq!(place, 0);
    let metric = |i| (kinds[i], flags[i], values[i]);
    Ok((others, (0..count).map(metric).collect()))
}

fn read(message: &[u8]) -> Read {
    read_into(message, [20; 3])
}

fn read_objects(objects: &[Vec<u8>]) -> Read {
    read(&message(PCREQ, objects))
}

fn refused(objects: &[Vec<u8>]) -> (u32, u32) {
    read_objects(objects).expect_err("it is refused")
}

fn ends() -> Vec<u8> {
    end_points(S, Z)
}

/// Every object, in the order of RFC 5440, with all that isn't looked at set.
const WHOLE: &str = "
    3F 03 00 5C                            # version 1, flags, PCReq, 92 bytes
    02 1F 00 14  FF FF FF FF  00 00 00 07  # RP: reserved bits, P, I; flags; request-ID 7
                 00 01 00 04  DE AD BE EF  # a TLV
    04 1C 00 0C  C0 00 02 01  C0 00 02 63  # END-POINTS: 192.0.2.1, 192.0.2.99
    05 11 00 08  42 C8 00 00               # BANDWIDTH 100.0
    06 1D 00 0C  FF FF FF 03  41 60 00 00  # METRIC: reserved, all flags, hop count, 14.0
    0A 13 00 0C  20 04 FB F1  20 04 FB F2  # IRO: AS 64497, AS 64498
    11 1E 00 18  FF FF FF FF               # XRO: reserved, flags
                 01 08 C0 00  02 0C 20 01  # 192.0.2.12
                 A0 04 00 09  20 04 00 09  # AS 9, X set; AS 9
";

#[test]
fn a_whole_pcreq() {
    let whole = hex(WHOLE);
    assert_eq!(whole.len(), 92);
    let numbers = [7, 0x3F, S, Z, 0x42C8_0000, 1, 60, 8, 76, 16];
    assert_eq!(read(&whole), Ok((numbers, vec![(3, 0xFF, 0x4160_0000)])));
}

#[test]
fn the_least_pcreq() {
    let least = [rp(0xFFFF_FFFF, 0), end_points(1, 2)];
    let numbers = [0xFFFF_FFFF, 0, 1, 2, 0, 0, 0, 0, 0, 0];
    assert_eq!(read_objects(&least), Ok((numbers, vec![])));
    let empty_lists = [rp(1, 0), ends(), iro(&[]), xro(&[])];
    let numbers = [1, 0, S, Z, 0, 0, 32, 0, 40, 0];
    assert_eq!(read_objects(&empty_lists), Ok((numbers, vec![])));
}

#[test]
fn rp_flags_are_o_b_r_and_pri() {
    for bit in 0..32 {
        let flags = 1 << bit;
        let (numbers, _) = read_objects(&[rp(1, flags), ends()]).expect("accepted");
        assert_eq!(numbers[1], flags & 0x3F);
    }
}

// 36: the header.

#[test]
fn headers() {
    let right = hex("20 03 00 04");
    assert_eq!(read(&right), Err((39, 0)));
    for flags in 0x20..0x40 {
        assert_eq!(read(&[flags, 3, 0, 4]), Err((39, 0)), "{flags:02X}");
    }
    let wrong = "
        / 20 / 20 03 / 20 03 00
        / 00 03 00 04 / 40 03 00 04 / 60 03 00 04 / E0 03 00 04 / 1F 03 00 04
        / 20 00 00 04 / 20 02 00 04 / 20 04 00 04 / 20 83 00 04
        / 20 03 00 00 / 20 03 00 03 / 20 03 00 08 / 20 03 04 00 / 20 03 01 04
        / 20 03 00 04 00 / 20 03 00 05 00 / 20 03 00 06 00 00 / 20 03 00 07 00 00 00
        / 20 03 00 04 00 00 00 00";
    for wrong in wrong.split('/') {
        assert_eq!(read(&hex(wrong)), Err((36, 0)), "{wrong}");
    }
    let mut long = message(PCREQ, &[rp(1, 0), ends()]);
    long.resize(4 + 0x1_0000, 0);
    assert_eq!(read(&long), Err((36, 0)), "65,540 bytes that say 4");
}

#[test]
fn the_header_is_tested_before_the_objects() {
    let mut wrong = message(PCREQ, &[said_length(rp(1, 0), 0)]);
    assert_eq!(read(&wrong), Err((37, 4)));
    wrong[1] = PCREP;
    assert_eq!(read(&wrong), Err((36, 0)));
}

// 37 and 38: the objects in turn.

#[test]
fn lengths_that_no_object_may_have() {
    for (class, object_type) in [(2, 1), (4, 1), (10, 1), (10, 2), (99, 0), (0, 15)] {
        for bits in [0, P] {
            for length in [
                0, 1, 2, 3, 5, 6, 7, 9, 13, 0x7FFF, 0xFFFF, 16, 20, 0x0100, 0xFFFC,
            ] {
                let last = said_length(object(class, object_type, bits, &[0; 8]), length);
                let wrong = [rp(1, 0), ends(), last];
                assert_eq!(refused(&wrong), (37, 28), "{class}/{object_type}, {length}");
            }
        }
    }
}

#[test]
fn lengths_of_the_objects_that_are_known() {
    let pad = [0; 4];
    let metric = metric(1, 0, 0);
    let known = [
        (rp(1, 0), cut(&rp(1, 0), 8)),
        (rp(1, 0), cut(&rp(1, 0), 4)),
        (ends(), cut(&ends(), 8)),
        (ends(), longer(&ends(), &pad)),
        (bandwidth(0), cut(&bandwidth(0), 4)),
        (bandwidth(0), longer(&bandwidth(0), &pad)),
        (metric.clone(), cut(&metric, 8)),
        (metric.clone(), cut(&metric, 4)),
        (metric.clone(), longer(&metric, &pad)),
        (xro(&[]), cut(&xro(&[]), 4)),
    ];
    for (right, wrong) in known {
        let before = [rp(1, 0), ends(), right];
        let place = 4 + before.concat().len() as u32;
        assert!(read_objects(&before).is_ok());
        // Also where it wouldn't count, and whatever its P and I.
        for bits in 0..16 {
            let after = with_bits(wrong.clone(), bits);
            assert_eq!(refused(&[&before[..], &[after]].concat()), (37, place));
        }
        assert_eq!(refused(&[wrong.clone()]), (37, 4));
        assert_eq!(refused(&[wrong, rp(1, 0), ends()]), (37, 4));
    }
}

#[test]
fn tlvs_are_skipped() {
    for tlvs in [
        "00 00 00 00",
        "FF FF FF FF",
        "00 01 00 02 00 00 00 00 12 34 56 78",
    ] {
        let rp = longer(&rp(9, 0x21), &hex(tlvs));
        let (numbers, _) = read_objects(&[rp, ends()]).expect("accepted");
        assert_eq!(numbers[..2], [9, 0x21]);
    }
}

#[test]
fn an_object_that_is_not_known() {
    // No-PATH and ERO are known in a PCRep alone; a known class of another type isn't known.
    let others = [
        (3, 1),
        (7, 1),
        (1, 1),
        (2, 0),
        (2, 2),
        (4, 2),
        (5, 2),
        (6, 0),
        (10, 0),
        (17, 2),
    ];
    for (class, object_type) in others {
        for body in [&[][..], &[0xFF; 4], &[0; 16]] {
            for bits in 0..16 {
                let other = object(class, object_type, bits, body);
                let read = read_objects(&[other.clone(), rp(1, 0), other, ends()]);
                match bits & P {
                    0 => assert!(read.is_ok(), "{class}/{object_type}"),
                    _ => assert_eq!(read, Err((38, 4)), "{class}/{object_type}"),
                }
            }
        }
    }
    let later = [
        rp(1, 0),
        object(99, 9, 0, &[]),
        ends(),
        object(99, 9, P, &[]),
    ];
    assert_eq!(refused(&later), (38, 32));
}

#[test]
fn each_object_passes_before_the_next_is_looked_at() {
    let unknown = object(99, 1, P, &[]);
    let wrong = said_length(unknown.clone(), 0);
    assert_eq!(refused(&[unknown.clone(), wrong.clone()]), (38, 4));
    assert_eq!(
        refused(&[wrong, unknown]),
        (37, 4),
        "37 before 38 of one object"
    );
}

// 39 and 40: what is missing.

#[test]
fn rp_and_end_points_must_be_there() {
    assert_eq!(refused(&[]), (39, 0));
    assert_eq!(refused(&[ends()]), (39, 0));
    assert_eq!(refused(&[rp(1, 0)]), (40, 0));
    assert_eq!(refused(&[object(2, 2, 0, &[0; 8]), ends()]), (39, 0));
    assert_eq!(refused(&[rp(1, 0), object(4, 2, 0, &[0; 8])]), (40, 0));
    // Objects go before them, and they before floats and lists.
    assert_eq!(refused(&[object(99, 1, P, &[])]), (38, 4));
    assert_eq!(refused(&[bandwidth(0x7F80_0000), iro(&[0; 4])]), (39, 0));
}

// 21, 22 and the form of the lists, then 34.

#[test]
fn float_bits() {
    let base = [rp(1, 0), ends()];
    for (bits, fine) in [
        (0, true),
        (0x7F7F_FFFF, true),
        (0x7F80_0000, false),
        (0x7FC0_0000, false),
        (0x8000_0000, false),
        (0xFFFF_FFFF, false),
    ] {
        let told = |place| if fine { None } else { Some((21, place)) };
        let asked = [&base[..], &[bandwidth(bits)]].concat();
        assert_eq!(read_objects(&asked).err(), told(0), "{bits:08X}");
        for flags in [0, B, C] {
            for at in 0..3 {
                let mut metrics = vec![metric(1, B, 0); 3];
                metrics[at] = metric(2, flags, bits);
                let asked = [&base[..], &metrics].concat();
                assert_eq!(read_objects(&asked).err(), told(1), "{bits:08X}");
            }
        }
    }
    let both = [
        &base[..],
        &[metric(1, 0, 0x7F80_0000), bandwidth(0x7F80_0000)],
    ]
    .concat();
    assert_eq!(refused(&both), (21, 0), "place 0 before place 1");
}

#[test]
fn lists_that_are_too_long() {
    let base = [rp(1, 0), ends()];
    let (most, over) = ([32, 4, 0, 9].repeat(256), [32, 4, 0, 9].repeat(257));
    let asked = |lists: &[Vec<u8>]| read_objects(&[&base[..], lists].concat()).err();
    assert_eq!(asked(&[iro(&most), xro(&most)]), None);
    assert_eq!(asked(&[xro(&over), iro(&over)]), Some((22, 0)));
    assert_eq!(
        asked(&[xro(&over), iro(&[0; 4])]),
        Some((22, 1)),
        "before form"
    );
    assert_eq!(asked(&[iro(&over), metric(1, 0, u32::MAX)]), Some((21, 1)));
}

#[test]
fn form_of_the_lists() {
    let base = [rp(1, 0), ends()];
    let asked = |lists: &[Vec<u8>]| read_objects(&[&base[..], lists].concat()).err();
    let fine = [32, 4, 0, 9];
    for (wrong, include, exclude) in [
        ("05 08 00 00", 23, 23),             // past the end
        ("22 04 00 00", 24, 24),             // type 34
        ("21 04 00 00", 26, 24),             // an EXRS with nothing inside
        ("21 08 FF FF A0 04 00 09", 0, 24),  // an EXRS
        ("A0 04 00 09", 27, 0),              // L, or X
        ("20 08 00 09", 25, 25),             // length
        ("01 08 C0 00 02 0C 1F 01", 26, 0),  // prefix length 31
        ("01 08 C0 00 02 0C 20 00", 0, 26),  // attribute 0
        ("07 08 03 00 49 00 01 01", 26, 26), // padding
    ] {
        for (before, place) in [(&[][..], 0), (&fine, 4)] {
            let list = [before, &hex(wrong)].concat();
            let told = |number| (number > 0).then_some((number, place));
            assert_eq!(asked(&[iro(&list)]), told(include), "{wrong}");
            assert_eq!(asked(&[xro(&list)]), told(exclude), "{wrong}");
        }
    }
    let both = [xro(&[0; 4]), iro(&[32, 8, 0, 0])];
    assert_eq!(asked(&both), Some((25, 0)), "the include list first");
    // What it means isn't looked at.
    assert_eq!(asked(&[iro(&SHORT), xro(&fine)]), None);
}

#[test]
fn room_for_the_metrics() {
    let metrics = [metric(1, 0, 1), metric(2, B, 2), metric(255, 0xFC, 3)];
    let objects = [&[rp(1, 0)][..], &metrics, &[ends()]].concat();
    let whole = message(PCREQ, &objects);
    let expected = vec![(1, 0, 1), (2, B, 2), (255, 0xFC, 3)];
    for room in [[3, 3, 3], [3, 4, 5], [9, 3, 3]] {
        assert_eq!(
            read_into(&whole, room).map(|read| read.1),
            Ok(expected.clone())
        );
    }
    for room in [[2, 3, 3], [3, 2, 3], [3, 3, 2], [0, 9, 9], [0, 0, 0]] {
        assert_eq!(read_into(&whole, room), Err((34, 0)), "{room:?}");
    }
    let none = message(PCREQ, &[rp(1, 0), ends()]);
    assert!(read_into(&none, [0; 3]).is_ok());
    let wrong = message(PCREQ, &[&objects[..], &[iro(&[0; 4])]].concat());
    assert_eq!(read_into(&wrong, [0; 3]), Err((24, 0)), "34 last");
}

// Which of several counts.

#[test]
fn of_objects_met_twice_the_first_counts() {
    // Those that don't count may have anything in them.
    let objects = [
        iro(&[32, 4, 0, 9]),
        bandwidth(0x3F80_0000),
        end_points(1, 2),
        rp(3, 4),
        xro(&[0x81, 8, 0, 0, 0, 0, 0, 1]),
        rp(5, 6),
        iro(&[0; 1028]),
        xro(&[0xFF; 8]),
        bandwidth(0xFFFF_FFFF),
        end_points(7, 8),
    ];
    let numbers = [3, 4, 1, 2, 0x3F80_0000, 0, 8, 4, 52, 8];
    assert_eq!(read_objects(&objects), Ok((numbers, vec![])));
}
