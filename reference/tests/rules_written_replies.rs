//! The rules for writing a PCRep (document 02's request [3]), on fields typed in
//! by hand.

use crate::common;
use common::messages::hex;
use common::replies::*;
use reference::Reply;

#[test]
fn what_is_written() {
    assert_eq!(spuz().write(), Ok(hex(WRITTEN)));
    assert_eq!(none().write(), Ok(hex(NONE_WRITTEN)));
    let all_flags = Fields {
        rp_flags: u32::MAX,
        ..none()
    };
    let written = all_flags.write().expect("written");
    assert_eq!(written[8..12], [0, 0, 0, 0x3F]);
    let empty = Fields {
        said: Ok(vec![]),
        ..none()
    };
    assert_eq!(empty.write().expect("written")[16..], hex("07 10 00 04"));
}

#[test]
fn what_does_not_count_is_not_written() {
    let addresses = vec![7; 20_000];
    spuz().reply(|reply| {
        let noisy = Reply {
            nature: 9,
            c_flag: true,
            ..*reply
        };
        assert_eq!(write_into(&noisy, 64), Ok(hex(WRITTEN)));
    });
    none().reply(|reply| {
        let noisy = Reply {
            addresses: &addresses,
            ..*reply
        };
        assert_eq!(write_into(&noisy, 24), Ok(hex(NONE_WRITTEN)));
    });
}

/// 8 bytes to an address and 12 to a METRIC, after 20.
#[test]
fn the_longest_message() {
    let lists = (vec![9; 9_000], vec![1; 6_000], vec![0; 6_000]);
    let with = |found, addresses, metrics| Reply {
        request_id: 1,
        rp_flags: 0,
        found,
        addresses: &lists.0[..addresses],
        nature: 0,
        c_flag: false,
        kinds: &lists.1[..metrics],
        flags: &lists.1[..metrics],
        values: &lists.2[..metrics],
    };
    for (found, addresses, metrics, length) in [
        (true, 8_189, 0, 65_532),
        (true, 8_187, 1, 65_528),
        (true, 0, 5_459, 65_528),
        (true, 1, 5_458, 65_524),
        (false, 9_000, 5_459, 65_532),
    ] {
        let written = write_into(&with(found, addresses, metrics), length);
        assert_eq!(written.map(|bytes| bytes.len()), Ok(length));
        let short = write_into(&with(found, addresses, metrics), length - 1);
        assert_eq!(short, Err((34, 0)));
    }
    for (found, addresses, metrics) in [
        (true, 8_190, 0),
        (true, 8_188, 1),
        (true, 0, 5_460),
        (true, 1, 5_459),
        (false, 0, 5_460),
    ] {
        let over = with(found, addresses, metrics);
        assert_eq!(write_into(&over, 70_000), Err((37, 0)));
        assert_eq!(write_into(&over, 0), Err((37, 0)), "37 before 34");
    }
}

#[test]
fn order_of_the_writers_checks() {
    let base = Reply {
        request_id: 1,
        rp_flags: 0,
        found: false,
        addresses: &[],
        nature: 0,
        c_flag: false,
        kinds: &[1; 2],
        flags: &[0; 2],
        values: &[0, 0x7F80_0000],
    };
    assert_eq!(write_into(&base, 0), Err((21, 1)), "21 before 34");
    for counts in [(1, 2, 2), (2, 1, 2), (2, 2, 1), (0, 2, 2), (3, 2, 2)] {
        let (kinds, flags) = (vec![0; counts.0], vec![0; counts.1]);
        let differ = Reply {
            kinds: &kinds,
            flags: &flags,
            values: &base.values[2 - counts.2..],
            ..base
        };
        assert_eq!(write_into(&differ, 99), Err((37, 0)), "37 before 21");
    }
    let fine = Reply {
        values: &[0, 0x7F7F_FFFF],
        ..base
    };
    assert_eq!(write_into(&fine, 47), Err((34, 0)));
    assert!(write_into(&fine, 48).is_ok());
}

#[test]
fn what_is_written_reads_back() {
    let metrics: Vec<_> = (0..=255)
        .map(|i| (i, 255 - i, u32::from(i) << 23 & 0x7F00_0000))
        .collect();
    for rp_flags in 0..0x40 {
        for said in [
            Ok(vec![]),
            Ok(vec![0, u32::MAX]),
            Err((0, false)),
            Err((255, true)),
        ] {
            let fields = Fields {
                request_id: 0x8000_0000 + rp_flags,
                rp_flags,
                said,
                metrics: metrics.clone(),
            };
            let written = fields.write().expect("written");
            assert_eq!(read_into(&written, [300; 4]), Ok(fields));
        }
    }
}
