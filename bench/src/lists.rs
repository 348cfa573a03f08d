//! read_include and write_list: the library beside the reference, on lists of 16
//! domains without and with EXRS.

use crate::race::race;
use reference::generate;
use tests::lists::{is_is, long_as, ReadCall};
use tests::writing::WriteCall;

/// A sequence of 16 domains, as both calls have it; of the bytes for EXRS as many
/// as `exrs_size` are used.
#[derive(Debug, PartialEq)]
struct Sequence {
    domains: [u16; 16],
    pinned: [u8; 16],
    pins: [u32; 16],
    exrs_counts: [u32; 16],
    exrs: [u8; 1_024],
    exrs_size: usize,
}

/// The domains 0 to 15, all but the first with an entry constraint.
fn constrained() -> Sequence {
    Sequence {
        domains: std::array::from_fn(|i| i as u16),
        pinned: std::array::from_fn(|i| u8::from(i > 0)),
        pins: std::array::from_fn(|i| 0xC633_6400 + 16 * i as u32),
        exrs_counts: [0; 16],
        exrs: [0; 1_024],
        exrs_size: 0,
    }
}

/// The same domains, all but the first with an EXRS instead.
fn with_exrs(profile: &[u8]) -> Sequence {
    let list = generate::largest_exrs_request(0, 1).include;
    read_by(reference::read_include, profile, &list)
}

/// A list of 16 domains with entry constraints on the largest profile, then one of
/// 1,024 bytes with EXRS; then two of 1,024 bytes on a profile of 64 domains that
/// has no hop to be checked, without and with EXRS.
pub fn read_include() {
    let largest = generate::largest_profile(0);
    let list = written(&largest, &constrained());
    race_read_include("read_include", &largest, &list);
    let full = generate::largest_exrs_request(0, 1).include;
    race_read_include("read_include, 15 EXRS, 1,024 bytes", &largest, &full);

    let mut without_hops = largest[..12 + 64 * 20].to_vec();
    without_hops[8..10].fill(0);
    let long = list_of_1024_bytes();
    race_read_include("read_include, no hops, 1,024 bytes", &without_hops, &long);
    race_read_include("read_include, no hops, 15 EXRS", &without_hops, &full);
}

/// The 16 domains, and the last of them once more as often as there is place
/// for it.
pub fn list_of_1024_bytes() -> Vec<u8> {
    let list = written(&generate::largest_profile(0), &constrained());
    let area = [0x49, 0, 1, 0, 0, 0, 0, 0, 0, 0, 0, 0, 7];
    let again = [long_as(64503), is_is(&area)].concat();
    let long = [&list, &again.repeat(22)[..]].concat();
    assert_eq!(long.len(), 1024);
    long
}

fn read_by(call: ReadCall, profile: &[u8], include: &[u8]) -> Sequence {
    let (mut domains, mut pinned, mut pins) = ([0; 16], [0; 16], [0; 16]);
    let (mut exrs_counts, mut exrs) = ([0; 16], [0; 1_024]);
    let mut numbers = [0; 3];
    let number = call(
        profile,
        0,
        include,
        &mut domains,
        &mut pinned,
        &mut pins,
        &mut exrs_counts,
        &mut exrs,
        &mut numbers,
    );
    assert_eq!((number, numbers[0], numbers[1]), (0, 0, 16));
    Sequence {
        domains,
        pinned,
        pins,
        exrs_counts,
        exrs,
        exrs_size: numbers[2] as usize,
    }
}

fn race_read_include(name: &str, profile: &[u8], include: &[u8]) {
    let by = |call: ReadCall| move || read_by(call, profile, include);
    race(name, by(tests::read_include), by(reference::read_include));
}

fn write_by(
    call: WriteCall,
    profile: &[u8],
    sequence: &Sequence,
    out: &mut [u8],
) -> (u32, [u32; 2]) {
    let mut numbers = [0; 2];
    let number = call(
        profile,
        &sequence.domains,
        &sequence.pinned,
        &sequence.pins,
        &sequence.exrs_counts,
        &sequence.exrs[..sequence.exrs_size],
        out,
        &mut numbers,
    );
    (number, numbers)
}

fn written(profile: &[u8], sequence: &Sequence) -> Vec<u8> {
    let mut out = vec![0; 1_024];
    let (number, numbers) = write_by(reference::write_list, profile, sequence, &mut out);
    assert_eq!(number, 0);
    out.truncate(numbers[1] as usize);
    out
}

/// The sequences of both kinds on the largest profile; that with EXRS also on a
/// profile that has no hop to be checked.
pub fn write_list() {
    let largest = generate::largest_profile(0);
    let mut without_hops = largest[..12 + 64 * 20].to_vec();
    without_hops[8..10].fill(0);
    let full = with_exrs(&largest);
    assert_eq!(written(&largest, &full).len(), 1_024);
    race_write_list("write_list", &largest, &constrained());
    race_write_list("write_list, 15 EXRS, 1,024 bytes", &largest, &full);
    race_write_list("write_list, no hops, 15 EXRS", &without_hops, &full);
}

fn race_write_list(name: &str, profile: &[u8], sequence: &Sequence) {
    let by = |call: WriteCall| {
        move || {
            let mut out = [0; 1_024];
            let left = write_by(call, profile, sequence, &mut out);
            assert_eq!(left.0, 0);
            (left, out)
        }
    };
    race(name, by(tests::write_list), by(reference::write_list));
}
