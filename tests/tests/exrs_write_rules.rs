//! The rules of write_list for EXRS: where they stand, every byte of a few
//! changed, every way to divide bytes among domains, and lists around 1,024
//! bytes.

use tests::compare::Counts;
use tests::lists::{
    entry, excluded, exrs, five_domains, is_is, long_as, marked, ospf, read, short_as, verdict,
};
use tests::writing::{old_bytes, WriteList, Written};

/// The domains 0, 3 and 4 of `five_domains`, 64498 with an entry constraint.
fn write(counts: &[u32], exrs: &[u8], capacity: usize) -> Written {
    let case = WriteList {
        profile: &five_domains(),
        domains: &[0, 3, 4],
        pinned: &[0, 1, 0],
        pins: &[9, 7, 9],
        exrs_counts: counts,
        exrs,
        out: old_bytes(capacity),
    };
    case.write(format_args!("{counts:?}, {exrs:02X?}"))
}

/// The list that has these EXRS.
fn expected(of_64498: &[u8], of_65536: &[u8]) -> Vec<u8> {
    [
        &long_as(64496),
        &entry(7),
        of_64498,
        &long_as(64498),
        &is_is(&[0x49, 0, 1]),
        of_65536,
        &long_as(65536),
    ]
    .concat()
}

/// EXRS that a reader takes whole, and so the writer too.
fn are_exrs(bytes: &[u8]) -> bool {
    let list = [bytes, &short_as(64498)].concat();
    let stops = vec![(0, None, vec![]), (3, None, bytes.to_vec())];
    read(&five_domains(), 0, &list, "bytes") == Ok(stops)
}

/// EXRS with all that can stand inside.
fn few() -> Vec<u8> {
    let all = exrs(&[
        marked(excluded(0x0102_0304, 32)),
        long_as(9),
        marked(ospf(4)),
        is_is(&[0x49, 0, 1]),
        marked(short_as(64498)),
    ]);
    let noisy = vec![33, 8, 0xFF, 0xFF, 32, 4, 0, 9];
    [noisy.clone(), all, noisy].concat()
}

/// The writer takes just the bytes that a reader gives.
#[test]
fn any_byte_of_a_few_exrs_changed_to_any_other() {
    let mut counts = Counts::default();
    let few = few();
    for at in 0..few.len() {
        let mut changed = few.clone();
        for value in 0..=255 {
            changed[at] = value;
            let written = write(&[0, few.len() as u32, 0], &changed, 1_024);
            let expected = match are_exrs(&changed) {
                true => Ok(expected(&changed, &[])),
                false => Err((35, 0)),
            };
            assert_eq!(written, expected, "byte {at} is {value}");
            counts.add(verdict(&written));
        }
    }
    counts.cover("EXRS written, any byte changed", &[0, 35]);
}

#[test]
fn a_few_exrs_cut_and_filled_up_anywhere() {
    let mut counts = Counts::default();
    let few = few();
    for length in 0..=few.len() {
        for after in [
            &[][..],
            &[0],
            &[33, 8],
            &[33, 4, 0, 0],
            &[33, 8, 0, 0, 32, 4, 0, 9],
            &[32, 4, 0, 9],
        ] {
            let bytes = [&few[..length], after].concat();
            let written = write(&[0, 0, bytes.len() as u32], &bytes, 1_024);
            let expected = match are_exrs(&bytes) {
                true => Ok(expected(&[], &bytes)),
                false => Err((35, 0)),
            };
            assert_eq!(written, expected, "{length} and {after:?}");
            counts.add(verdict(&written));
        }
    }
    counts.cover("EXRS written, cut and filled up", &[0, 35]);
}

/// Every division of the bytes of a few EXRS among three domains, and every sum
/// around theirs.
#[test]
fn every_division_among_the_domains() {
    let mut counts = Counts::default();
    let few = few();
    let whole = few.len() as u32;
    // Where one EXRS ends and the next begins.
    let ends = [0, 8, whole - 8, whole];
    for first in 0..=whole + 4 {
        for second in 0..=whole + 4 {
            let fits = first + second == whole && ends.contains(&first);
            let written = write(&[0, first, second], &few, 1_024);
            let (a, b) = few.split_at(if fits { first as usize } else { 0 });
            let expected = match fits {
                true => Ok(expected(a, b)),
                false => Err((35, 0)),
            };
            assert_eq!(written, expected, "{first}, {second}");
            counts.add(verdict(&written));
        }
    }
    for on_first in [1, 4, 8, whole] {
        let rest = whole.saturating_sub(on_first);
        assert_eq!(write(&[on_first, rest, 0], &few, 1_024), Err((35, 0)));
    }
    println!("\nEXRS written, divisions: {} are right", counts.cases(0));
    assert_eq!(counts.cases(0), 4);
}

/// Sums that are right in 32 bits alone, or in 64 with a sign.
#[test]
fn sums_over_32_bits() {
    let few = few();
    let whole = few.len() as u32;
    let high = 1 << 31;
    for counts in [
        [0, high, high + whole],
        [0, high + 8, high + whole - 8],
        [high, high, whole],
        [0, u32::MAX, whole + 1],
        [u32::MAX, 1, whole],
        [0, u32::MAX, u32::MAX],
        [0, u32::MAX, 0],
    ] {
        assert_eq!(write(&counts, &few, 1_024), Err((35, 0)), "{counts:?}");
    }
    assert_eq!(write(&[0, whole, 0], &few, 1_024), Ok(expected(&few, &[])));
}

#[test]
fn every_number_of_counts() {
    let piece = exrs(&[short_as(9)]);
    for number in 0..=20 {
        for at in 0..number {
            let mut counts = vec![0; number];
            counts[at] = 8;
            let written = write(&counts, &piece, 1_024);
            let expected = match (number, at) {
                (3, 1) => Ok(expected(&piece, &[])),
                (3, 2) => Ok(expected(&[], &piece)),
                _ => Err((35, 0)),
            };
            assert_eq!(written, expected, "{counts:?}");
        }
        let written = verdict(&write(&vec![0; number], &[], 1_024));
        let expected = if number == 3 { (0, 0) } else { (35, 0) };
        assert_eq!(written, expected, "{number}");
    }
}

/// EXRS of every length up to one that makes the list too long, on the second
/// domain, on the third and on both; into just as many bytes and one less.
#[test]
fn lists_around_1024_bytes() {
    let mut counts = Counts::default();
    let bare = expected(&[], &[]).len();
    let filling = |bytes: usize| -> Vec<u8> {
        let mut left = bytes;
        let mut all = Vec::new();
        while left > 0 {
            let most = left.min(252);
            let length = if left - most == 4 { most - 4 } else { most };
            all.extend(exrs(&vec![marked(short_as(9)); length / 4 - 1]));
            left -= length;
        }
        all
    };
    for bytes in (8..=1_200).step_by(4) {
        let all = filling(bytes);
        assert_eq!(all.len(), bytes);
        let first = subobjects_end(&all);
        for own in [0, first, bytes] {
            let counts_of = [0, own as u32, (bytes - own) as u32];
            let list = expected(&all[..own], &all[own..]);
            assert_eq!(list.len(), bare + bytes);
            let fits = list.len() <= 1_024;
            let room = list.len();
            let (exact, short) = match fits {
                true => (Ok(list), Err((34, 0))),
                false => (Err((35, 0)), Err((35, 0))),
            };
            let written = write(&counts_of, &all, room);
            assert_eq!(written, exact, "{bytes}, {own}");
            assert_eq!(write(&counts_of, &all, room - 1), short, "{bytes}, {own}");
            assert_eq!(write(&counts_of, &all, 0), short, "{bytes}, {own}");
            counts.add((verdict(&written).0, room as u32));
        }
    }
    counts.cover("EXRS written, around 1,024 bytes", &[0, 35]);
    assert!(counts.places(0) >= 200 && counts.places(35) >= 30);
}

/// Where the first EXRS ends.
fn subobjects_end(bytes: &[u8]) -> usize {
    usize::from(bytes[1])
}

/// 35 for the EXRS goes with the other causes of 35: after the profile, before
/// 34.
#[test]
fn checks_come_in_order() {
    let mut damaged = five_domains();
    damaged[12 + 20 + 4] = 3;
    let profile = five_domains();
    for (profile, exrs_counts, capacity, told) in [
        (&damaged, &[1, 0][..], 0, (14, 1)),
        (&profile, &[1, 0], 0, (35, 0)),
        (&profile, &[0, 1], 0, (35, 0)),
        (&profile, &[0], 1_024, (35, 0)),
        (&profile, &[0, 0], 15, (34, 0)),
        (&profile, &[0, 0], 16, (0, 0)),
    ] {
        let written = WriteList {
            profile,
            domains: &[0, 4],
            pinned: &[0, 0],
            pins: &[0, 0],
            exrs_counts,
            exrs: &[],
            out: old_bytes(capacity),
        }
        .write(format_args!("{told:?}"));
        assert_eq!(verdict(&written), told, "{exrs_counts:?}");
    }
}
