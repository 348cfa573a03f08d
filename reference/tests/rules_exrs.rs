//! The rules for EXRS (document 02's request [5]): their form, the domain that
//! they belong to, and how they are read and written. Lists are typed byte by
//! byte.

use crate::common;
use common::messages::hex;
use common::*;
use reference::generate::Reading;

/// 0: 64496; 1 and 2: 64497 with OSPF areas 0 and 4; 3: 64498 with an IS-IS
/// area; 4: 65536.
fn profile() -> Vec<u8> {
    let domains = [
        domain(64496, 0, &[]),
        domain(64497, 1, &[0, 0, 0, 0]),
        domain(64497, 1, &[0, 0, 0, 4]),
        domain(64498, 2, &[0x49, 0, 1]),
        domain(65536, 0, &[]),
    ];
    file(0, &domains, &[])
}

fn read_hex(list: &str) -> Reading {
    read(&profile(), 0, &hex(list))
}

/// A sequence without entry constraints, with the EXRS of each domain.
fn with_exrs(stops: &[(u16, &str)]) -> Reading {
    let stop = |&(domain, exrs): &(u16, &str)| (domain, None, hex(exrs));
    Ok(stops.iter().map(stop).collect())
}

/// A right EXRS: node 192.0.2.12, X clear.
const Q_OUT: &str = "21 0C 00 00 01 08 C0 00 02 0C 20 01";
/// A right EXRS of AS 9 with X set, and with anything in the reserved bytes.
const AS_9: &str = "21 08 12 34 A0 04 00 09";
const AS_64498: &str = "20 04 FB F2";
const AS_65536: &str = "05 08 00 00 00 01 00 00";
const ENTRY: &str = "01 08 00 00 00 07 20 00";

#[test]
fn the_form_of_the_exrs_itself() {
    for (list, number) in [
        ("21", 23),
        ("A1 00 00", 23),
        ("A1 00 00 00", 27),             // L before length
        ("A1 08 00 00 20 04 00 09", 27), // L alone
        ("21 00 00 00", 25),
        ("21 01 00 00", 25),
        ("21 03 00 00 20 04 00 09", 25),
        ("21 05 00 00", 23), // past the end
        ("21 08 00 00", 23), // before what is inside
        ("21 0C 00 00 FF FF FF FF", 23),
        ("21 FF 00 00 20 04 00 09", 23),
        ("21 04 00 00", 26), // nothing inside
        ("21 04 FF FF 20 04 00 09", 26),
    ] {
        assert_eq!(read_hex(list), Err((number, 0)), "{list}");
        let later = format!("{AS_64498} {list}");
        assert_eq!(read_hex(&later), Err((number, 4)), "{list}");
    }
}

#[test]
fn the_form_of_what_is_inside() {
    for (inside, number, at) in [
        ("20", 23, 0), // under 4 left up to the EXRS's end
        ("A0 04", 23, 0),
        ("7F 00 00", 23, 0),
        ("22 04 00 00", 24, 0),
        ("80 00 00 00", 24, 0),
        ("21 08 00 00 20 04 00 09", 24, 0), // an EXRS inside an EXRS
        ("A1 00 00 00", 24, 0),             // type before all else
        ("07 63 00 00", 26, 0),             // area length before length
        ("87 08 0E 00 00 00 00 00", 26, 0),
        ("07 0C 03 00", 25, 0), // length before past the end
        ("20 08 00 09", 25, 0),
        ("05 04 00 00", 25, 0),
        ("05 08 00 00", 23, 0), // past the EXRS's end
        ("01 08 C0 00 02 0C 21", 23, 0),
        ("01 08 C0 00 02 0C 21 01", 26, 0), // prefix length 33
        ("81 08 C0 00 02 0C 20 00", 26, 0), // attribute 0
        ("07 08 03 00 49 00 01 01", 26, 0), // padding
        ("20 04 00 09 20", 23, 4),
        ("A0 04 00 09 21 04 00 00", 24, 4),
        ("01 08 00 00 00 00 00 01 06 08 00 00", 23, 8),
        ("01 08 00 00 00 00 00 01 06 0C 00 00 00 00 00 00", 25, 8),
    ] {
        let length = 4 + hex(inside).len();
        let exrs = format!("21 {length:02X} FF FF {inside}");
        // Whatever follows the EXRS, it ends where it says.
        for after in ["", "00", AS_64498, "00 04 00 09 00 04 00 09"] {
            let list = format!("{exrs} {after}");
            assert_eq!(read_hex(&list), Err((number, 4 + at)), "{list}");
            let later = format!("{ENTRY} {Q_OUT} {list}");
            assert_eq!(read_hex(&later), Err((number, 24 + at)), "{list}");
        }
    }
}

#[test]
fn the_first_wrong_subobject_is_told_inside_or_not() {
    let inside = "21 08 00 00 22 04 00 09";
    assert_eq!(read_hex(&format!("{inside} 00 00 00 00")), Err((24, 4)));
    assert_eq!(read_hex(&format!("{Q_OUT} {inside} 00")), Err((24, 16)));
    assert_eq!(read_hex(&format!("20 08 00 09 {inside}")), Err((25, 0)));
    // All form before any meaning: an unknown AS, and an EXRS left over.
    assert_eq!(read_hex(&format!("20 04 00 09 {inside}")), Err((24, 8)));
    assert_eq!(read_hex(&format!("{AS_9} {inside}")), Err((24, 12)));
}

#[test]
fn an_exclude_list_has_no_exrs() {
    let (profile, include) = (profile(), hex(AS_64498));
    for (exclude, place) in [(AS_9.to_string(), 0), (format!("20 04 00 09 {AS_9}"), 4)] {
        let exclude = hex(&exclude);
        let mut request = ask(&profile, &include);
        request.exclude = &exclude;
        let (number, numbers, _) = first(&request, 3);
        assert_eq!((number, numbers[0]), (24, place));
    }
}

#[test]
fn an_exrs_belongs_to_the_next_new_domain() {
    let list = format!("{Q_OUT} {AS_64498} {AS_9} {AS_65536}");
    let expected = with_exrs(&[(0, ""), (3, Q_OUT), (4, AS_9)]);
    assert_eq!(read_hex(&list), expected);
    // It waits over what adds nothing.
    let list = format!("{Q_OUT} 20 04 FB F0 05 08 00 00 00 00 FB F0 {AS_64498}");
    assert_eq!(read_hex(&list), with_exrs(&[(0, ""), (3, Q_OUT)]));
    let again = "07 08 03 00 49 00 01 00";
    let list = format!("{AS_64498} {AS_9} {again} {Q_OUT} {again} {AS_65536}");
    let both = format!("{AS_9} {Q_OUT}");
    let expected = with_exrs(&[(0, ""), (3, ""), (4, &both)]);
    assert_eq!(read_hex(&list), expected);
}

#[test]
fn several_add_up_in_the_order_read() {
    let list = format!("{AS_9} {Q_OUT} {AS_9} {AS_64498}");
    let all = format!("{AS_9} {Q_OUT} {AS_9}");
    assert_eq!(read_hex(&list), with_exrs(&[(0, ""), (3, &all)]));
}

#[test]
fn an_entry_constraint_may_stand_anywhere_among_them() {
    let all = hex(&format!("{AS_9} {Q_OUT}"));
    for list in [
        format!("{ENTRY} {AS_9} {Q_OUT} {AS_64498}"),
        format!("{AS_9} {ENTRY} {Q_OUT} {AS_64498}"),
        format!("{AS_9} {Q_OUT} {ENTRY} {AS_64498}"),
    ] {
        let expected = vec![(0, None, Vec::new()), (3, Some(7), all.clone())];
        assert_eq!(read_hex(&list), Ok(expected), "{list}");
    }
    let second = format!("{ENTRY} {AS_9} {ENTRY} {AS_64498}");
    assert_eq!(read_hex(&second), Err((32, 16)));
}

#[test]
fn what_is_left_over_is_told_by_the_smallest_offset() {
    for (list, told) in [
        (AS_9.to_string(), (42, 0)),
        (format!("{AS_64498} {AS_9}"), (42, 4)),
        (format!("{AS_64498} {AS_9} {AS_64498}"), (42, 4)),
        (format!("{AS_64498} {AS_9} {Q_OUT}"), (42, 4)),
        (format!("{Q_OUT} {AS_64498} {Q_OUT}"), (42, 16)),
        (format!("{ENTRY} {AS_9}"), (32, 0)),
        (format!("{AS_9} {ENTRY}"), (42, 0)),
        (format!("{AS_9} {ENTRY} {Q_OUT}"), (42, 0)),
        (format!("{AS_64498} {ENTRY} {AS_9} {Q_OUT}"), (32, 4)),
        // Told last.
        (format!("{AS_9} 20 04 00 09"), (28, 8)),
        (format!("{AS_9} 05 08 00 00 00 00 FB F1"), (29, 8)),
        (format!("{AS_64498} {AS_9} 20 04 FB F0"), (30, 12)),
    ] {
        assert_eq!(read_hex(&list), Err(told), "{list}");
    }
}

#[test]
fn an_exrs_between_an_as_and_an_area() {
    let (as_64497, area_4) = ("05 08 00 00 00 00 FB F1", "06 08 00 00 00 00 00 04");
    let at_once = format!("{AS_9} {as_64497} {area_4}");
    assert_eq!(read_hex(&at_once), with_exrs(&[(0, ""), (2, AS_9)]));
    assert_eq!(
        read_hex(&format!("{as_64497} {AS_9} {area_4}")),
        Err((29, 0))
    );
    let lacked = format!("20 04 00 09 {AS_9} {area_4}");
    assert_eq!(read_hex(&lacked), Err((28, 0)));
    // The AS names its only domain; its area then adds nothing.
    let area = "07 08 03 00 49 00 01 00";
    let list = format!("{AS_64498} {AS_9} {area} {AS_65536}");
    assert_eq!(read_hex(&list), with_exrs(&[(0, ""), (3, ""), (4, AS_9)]));
    assert_eq!(read_hex(&format!("{AS_64498} {AS_9} {area}")), Err((42, 4)));
    // The current AS stays what it is.
    let list = format!("{as_64497} {area_4} {AS_9} 06 08 00 00 00 00 00 00");
    assert_eq!(read_hex(&list), with_exrs(&[(0, ""), (2, ""), (1, AS_9)]));
}

#[test]
fn the_longest_exrs_and_the_longest_list() {
    // 62 exclusions of 4 bytes: 252 in all.
    let longest = format!("21 FC 00 00 {}", "20 04 00 09 ".repeat(62));
    let list = format!("{longest} {AS_64498}");
    assert_eq!(read_hex(&list), with_exrs(&[(0, ""), (3, &longest)]));
    let with_three = format!("21 FF 00 00 {} 20 04 00", "20 04 00 09 ".repeat(62));
    assert_eq!(
        read_hex(&format!("{with_three} {AS_64498}")),
        Err((23, 252))
    );
    // Four of them, 12 bytes more and a name: 1,024.
    let full = format!("{} {Q_OUT}", longest.repeat(4));
    let list = format!("{full} {AS_64498}");
    assert_eq!(hex(&list).len(), 1_024);
    assert_eq!(read_hex(&list), with_exrs(&[(0, ""), (3, &full)]));
    let over = format!("{full} {AS_64498} {AS_64498}");
    assert_eq!(read_hex(&over), Err((22, 0)));
}

#[test]
fn capacity_for_the_bytes_and_for_the_counts() {
    let list = hex(&format!("{Q_OUT} {AS_64498} {AS_9} {AS_9} {AS_65536}"));
    for (counts, bytes, number) in [
        (3, 28, 0),
        (4, 40, 0),
        (3, 27, 34),
        (2, 28, 34),
        (3, 12, 34),
        (0, 0, 34),
    ] {
        let (mut domains, mut pinned, mut pins) = ([9; 3], [9; 3], [9; 3]);
        let (mut exrs_counts, mut exrs) = (vec![9; counts], vec![9; bytes]);
        let mut numbers = [7; 3];
        let answer = reference::read_include(
            &profile(),
            0,
            &list,
            &mut domains,
            &mut pinned,
            &mut pins,
            &mut exrs_counts,
            &mut exrs,
            &mut numbers,
        );
        assert_eq!(answer, number);
        let mut expected = (vec![9; counts], vec![9; bytes]);
        if number == 0 {
            assert_eq!(numbers, [0, 3, 28]);
            assert_eq!((domains, pinned), ([0, 3, 4], [0; 3]));
            expected.0[..3].copy_from_slice(&[0, 12, 16]);
            let all = hex(&format!("{Q_OUT} {AS_9} {AS_9}"));
            expected.1[..28].copy_from_slice(&all);
        } else {
            assert_eq!(numbers, [0; 3]);
            assert_eq!((domains, pinned, pins), ([9; 3], [9; 3], [9; 3]));
        }
        assert_eq!((exrs_counts, exrs), expected);
    }
}
