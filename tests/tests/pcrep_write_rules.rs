//! The rules of write_pcrep by hand: METRICs whose parts don't fit together,
//! float bits, every value of each field, what isn't looked at, and stack.

use reference::generate::{self, PcRepFields};
use reference::Reply;
use tests::by_hand::replies;
use tests::lists::verdict;
use tests::pcrep::{expected, read, write, write_pcrep, WritePcRep, BASE};
use tests::stack;
use tests::writing::old_bytes;

/// The METRICs' parts in every combination of counts: 37 before any other check.
#[test]
fn counts_that_differ() {
    let bytes = [1; 6];
    for code in 0..343 {
        let [kinds, flags, metrics] = [code % 7, code / 7 % 7, code / 49];
        let agree = kinds == metrics && flags == metrics;
        for (bits, capacity, otherwise) in [
            (0x7F80_0000, 0, (21, 1)),
            (0x7F7F_FFFF, 19 + 12 * metrics, (34, 0)),
            (0x7F7F_FFFF, 20 + 12 * metrics, (0, 0)),
        ] {
            let values = vec![bits; metrics];
            let reply = Reply {
                kinds: &bytes[..kinds],
                flags: &bytes[..flags],
                values: &values,
                ..BASE
            };
            let which = format!("{kinds}, {flags} and {metrics} into {capacity}");
            let out = old_bytes(capacity);
            let written = WritePcRep { reply, out }.write(&which);
            let expected = match (agree, metrics, otherwise.0) {
                (false, ..) => (37, 0),
                // Without a METRIC none is out of range.
                (_, 0, 21) => (34, 0),
                _ => otherwise,
            };
            assert_eq!(verdict(&written), expected, "{which}");
        }
    }
    println!("\nwrite_pcrep, counts: 1029 cases");
}

/// Too long goes before a METRIC out of range, and that before no capacity.
#[test]
fn which_is_told_first() {
    let path = [9; 8_300];
    for (addresses, bits, capacity, expected) in [
        (8_188, u32::MAX, 0, (37, 0)),
        (8_188, u32::MAX, 65_536, (37, 0)),
        (8_188, 0, 0, (37, 0)),
        (8_187, u32::MAX, 0, (21, 1)),
        (8_187, u32::MAX, 65_536, (21, 1)),
        (8_187, 0, 65_527, (34, 0)),
        (8_187, 0, 65_528, (0, 0)),
    ] {
        let reply = Reply {
            addresses: &path[..addresses],
            kinds: &[1],
            flags: &[1],
            values: &[bits],
            ..BASE
        };
        let which = format!("{addresses}, {bits:08X}, into {capacity}");
        let out = old_bytes(capacity);
        let written = WritePcRep { reply, out }.write(&which);
        assert_eq!(verdict(&written), expected, "{which}");
    }
}

#[test]
fn float_bits() {
    let edges = [
        0x7F7F_FFFF,
        0x7F80_0000,
        0x7F80_0001,
        0x7FC0_0000,
        0x8000_0000,
        u32::MAX,
    ];
    for bits in edges.into_iter().chain((0..32).map(|bit| 1 << bit)) {
        for at in 0..3 {
            let mut values = [5; 3];
            values[at] = bits;
            for found in [true, false] {
                let reply = Reply {
                    found,
                    kinds: &[1; 3],
                    flags: &[2; 3],
                    values: &values,
                    ..BASE
                };
                let written = write(&reply, format_args!("{bits:08X}"));
                if bits >= 0x7F80_0000 {
                    assert_eq!(written, Err((21, 1)));
                    continue;
                }
                let back = read(&written.expect("written"), bits).expect("read");
                assert_eq!(back.metrics, values.map(|value| (1, 2, value)));
            }
        }
    }
}

/// All kinds and flags of a METRIC, all flags of an RP, all natures.
#[test]
fn every_value_of_the_fields() {
    let all: Vec<u8> = (0..=255).collect();
    for first in 0..=255 {
        let reply = Reply {
            request_id: u32::from(first) << 24 | 0x00AB_CDEF,
            rp_flags: u32::from(first) | 0xFFFF_0000,
            found: false,
            nature: first,
            c_flag: first % 3 == 0,
            kinds: &all,
            flags: &[first; 256],
            values: &[1; 256],
            ..BASE
        };
        let written = write(&reply, first).expect("written");
        let fields = PcRepFields {
            request_id: reply.request_id,
            rp_flags: u32::from(first) & 0x3F,
            said: Err((first, reply.c_flag)),
            metrics: all.iter().map(|&kind| (kind, first, 1)).collect(),
        };
        assert_eq!(written, expected(&fields));
        assert_eq!(read(&written, first), Ok(fields));
    }
    for bit in 0..32 {
        let reply = Reply {
            rp_flags: 1 << bit,
            ..BASE
        };
        let written = write(&reply, bit).expect("written");
        assert_eq!(written[8..12], (1u32 << bit & 0x3F).to_be_bytes());
    }
}

/// A path's reply has no nature and no C, another none of the addresses.
#[test]
fn what_does_not_count_is_not_looked_at() {
    let path = vec![9; 20_000];
    let plain = [true, false].map(|found| write(&Reply { found, ..BASE }, found));
    let noisy = Reply {
        nature: 255,
        c_flag: true,
        ..BASE
    };
    assert_eq!(write(&noisy, "nature"), plain[0]);
    let noisy = Reply {
        found: false,
        addresses: &path,
        ..BASE
    };
    assert_eq!(write(&noisy, "addresses"), plain[1]);
}

// What a caller may count on besides the answer.

#[test]
fn a_count_is_more_than_32_bits() {
    // Zero pages that are never looked at take no memory. As 32-bit numbers the
    // lengths of these messages would be small.
    let words = vec![0u32; 1 << 30];
    let mut bytes = vec![0u8; (1 << 32) + 1];
    let (mut out, mut numbers) = ([0xAA; 64], [7; 2]);
    let mut refused = |reply: &Reply| {
        let number = write_pcrep(reply, &mut out, &mut numbers);
        assert_eq!((number, numbers, out), (37, [0, 0], [0xAA; 64]));
    };
    refused(&Reply {
        addresses: &words[..1 << 29],
        ..BASE
    });
    refused(&Reply {
        kinds: &bytes[..1 << 30],
        flags: &bytes[..1 << 30],
        values: &words,
        ..BASE
    });
    refused(&Reply {
        kinds: &bytes,
        flags: &[0],
        values: &[0],
        ..BASE
    });
    let none = Reply {
        found: false,
        addresses: &words,
        ..BASE
    };
    let mut numbers = [7; 2];
    let number = write_pcrep(&none, &mut bytes[..1 << 32], &mut numbers);
    assert_eq!((number, numbers), (0, [0, 24]));
}

#[test]
fn only_the_two_numbers_are_stored() {
    for (values, expected) in [([1], [7, 0, 32, 7]), ([u32::MAX], [7, 1, 0, 7])] {
        let reply = Reply {
            kinds: &[1],
            flags: &[1],
            values: &values,
            ..BASE
        };
        let (mut around, mut out) = ([7; 4], [0; 40]);
        let numbers = (&mut around[1..3]).try_into().expect("two numbers");
        write_pcrep(&reply, &mut out, numbers);
        assert_eq!(around, expected);
    }
}

#[test]
fn bytes_may_lie_at_any_address() {
    let expected = replies::spuz().reply(|reply| write(reply, "aligned"));
    let expected = expected.expect("written");
    for offset in 0..16 {
        let (mut out, mut numbers) = ([0xAA; 100], [7; 2]);
        let number =
            replies::spuz().reply(|reply| write_pcrep(reply, &mut out[offset..], &mut numbers));
        assert_eq!((number, numbers[1] as usize), (0, expected.len()));
        assert_eq!(out[offset..offset + expected.len()], expected);
    }
}

#[test]
fn stack_of_at_most_16_kib() {
    let (mut out, mut numbers) = (vec![0; 65_536], [0; 2]);
    let mut most = 0;
    for seed in 0..1_000 {
        let case = generate::reply_case(seed);
        let reply = case.reply();
        let bytes = stack::bytes_used(|| _ = write_pcrep(&reply, &mut out, &mut numbers));
        most = most.max(bytes);
    }
    let longest = Reply {
        addresses: &[9; 8_189],
        ..BASE
    };
    let bytes = stack::bytes_used(|| _ = write_pcrep(&longest, &mut out, &mut numbers));
    most = most.max(bytes);
    println!("\nwrite_pcrep: {most} bytes of stack");
    assert!(most <= 16 * 1024);
}
