//! The form of EXRS through read_include: every value of the bytes that a rule
//! looks at, inside an EXRS and of it, every length, each refusal at each offset,
//! and every short list of a few subobjects with EXRS among them.

use tests::by_hand::{domain, file};
use tests::compare::Counts;
use tests::lists::{
    entry, excluded, exrs, five_domains, is_is, long_as, marked, ospf, read, short_as, verdict,
};

/// Lists for `five_domains` with EXRS of all that can stand inside; and the
/// domain they start in.
fn few_lists() -> Vec<(u16, Vec<u8>)> {
    let all = exrs(&[
        marked(excluded(0x0102_0304, 32)),
        long_as(9),
        marked(ospf(4)),
        is_is(&[0x49, 0, 1]),
        marked(short_as(64498)),
    ]);
    let noisy = vec![33, 12, 0xFF, 0xFF, 7, 8, 3, 0xFF, 0x49, 0, 1, 0];
    let across = [
        entry(7),
        all,
        short_as(64496),
        short_as(64498),
        exrs(&[short_as(9)]),
        long_as(65536),
    ];
    let between = [long_as(64497), noisy.clone(), ospf(4)];
    let from_inside = [ospf(4), exrs(&[excluded(9, 0)]), entry(9), noisy, ospf(0)];
    vec![
        (0, across.concat()),
        (0, between.concat()),
        (3, [long_as(64497), from_inside.concat()].concat()),
        (
            0,
            [short_as(64498), exrs(&[short_as(9)]), entry(7)].concat(),
        ),
        (
            0,
            [entry(7), exrs(&[short_as(9)]), short_as(64496)].concat(),
        ),
    ]
}

#[test]
fn any_byte_of_a_few_lists_changed_to_any_other() {
    let profile = five_domains();
    let mut counts = Counts::default();
    for (ingress, list) in few_lists() {
        for at in 0..list.len() {
            let mut changed = list.clone();
            for value in 0..=255 {
                changed[at] = value;
                let which = format_args!("from {ingress}, byte {at} set to {value}");
                counts.add(verdict(&read(&profile, ingress, &changed, which)));
            }
        }
    }
    let possible = [0, 23, 24, 25, 26, 27, 28, 29, 32, 42];
    counts.cover("EXRS, any byte changed", &possible);
}

#[test]
fn a_few_lists_cut_and_filled_up_anywhere() {
    let profile = five_domains();
    let mut counts = Counts::default();
    for (ingress, list) in few_lists() {
        for length in 0..=list.len() {
            for after in [
                &[][..],
                &[0],
                &[33, 8],
                &[33, 4, 0, 0],
                &[33, 8, 0, 0, 32, 4, 0, 9],
                &[0x55; 9],
            ] {
                let changed = [&list[..length], after].concat();
                let which = format_args!("from {ingress}, {length} bytes and {after:?}");
                counts.add(verdict(&read(&profile, ingress, &changed, which)));
            }
        }
    }
    let possible = [0, 23, 24, 25, 26, 28, 29, 32, 42];
    counts.cover("EXRS, cut and filled up", &possible);
}

/// The first two bytes of what stands inside, in EXRS of several lengths. All
/// else inside is zero but an area length of 3 and a node's attribute, which is
/// that area's padding.
#[test]
fn every_first_and_second_byte_inside() {
    let profile = five_domains();
    let mut counts = Counts::default();
    let (mut right, mut padded) = (0, 0);
    for length in [7, 8, 12, 16, 24] {
        let mut whole = vec![0; length];
        whole[..2].copy_from_slice(&[33, length as u8]);
        whole[6] = 3;
        if length > 11 {
            whole[11] = 1;
        }
        for first in 0..=255 {
            for second in 0..=255 {
                whole[4..6].copy_from_slice(&[first, second]);
                let told = told_inside(length - 4, first, second);
                let expected = match told {
                    Some(told) => Err(told),
                    None => Ok(vec![(0, None, vec![]), (3, None, whole.clone())]),
                };
                let list = [&whole[..], &short_as(64498)].concat();
                let which = format!("{length}: {first}, {second}");
                assert_eq!(read(&profile, 0, &list, &which), expected, "{which}");
                match told {
                    Some((26, _)) => padded += 1,
                    Some(told) => counts.add(told),
                    None => right += 1,
                }
            }
        }
    }
    counts.cover("EXRS, two bytes inside", &[23, 24, 25]);
    // Type 32 alone in four bytes; types 1, 5 and 6 in eight; type 7 in three
    // lengths; with X or not.
    assert_eq!((right, padded), (8, 6));
}

/// What is told of so many bytes inside that begin with these two.
fn told_inside(bytes: usize, first: u8, second: u8) -> Option<(u32, u32)> {
    let kind = first & 0x7F;
    let own = match kind {
        1 | 5 | 6 | 7 => 8,
        _ => 4,
    };
    if bytes < 4 {
        Some((23, 4))
    } else if ![1, 5, 6, 7, 32].contains(&kind) {
        Some((24, 4))
    } else if usize::from(second) != own {
        Some((25, 4))
    } else if own > bytes {
        Some((23, 4))
    } else if kind == 7 {
        Some((26, 4))
    } else if own < bytes {
        // Type 0 follows.
        Some((24, 4 + own as u32))
    } else {
        None
    }
}

/// Every length that an EXRS may say it has, in lists of several lengths: it ends
/// there whatever follows.
#[test]
fn every_length_of_an_exrs() {
    let profile = five_domains();
    let mut counts = Counts::default();
    for inside in 0..=70 {
        for length in 0..=255 {
            let pieces = short_as(9).repeat(inside);
            let list = [&[33, length, 0, 0], &pieces[..]].concat();
            let (whole, length) = (list.len(), usize::from(length));
            // Past its end stand names of an AS that isn't there.
            let expected = match length {
                0..=3 => (25, 0),
                _ if length > whole => (23, 0),
                4 => (26, 0),
                _ if length % 4 != 0 => (23, length as u32 / 4 * 4),
                _ if length < whole => (28, length as u32),
                _ => (42, 0),
            };
            let which = format!("{length} of {whole}");
            assert_eq!(read(&profile, 0, &list, &which), Err(expected), "{which}");
            counts.add(expected);
        }
    }
    counts.cover("EXRS, every length", &[23, 25, 26, 28, 42]);
}

/// What is wrong inside an EXRS; the last ones end with it.
fn faults_inside() -> Vec<(u32, Vec<u8>, bool)> {
    vec![
        (24, vec![34, 4, 0, 9], false),
        (24, exrs(&[short_as(9)]), false),
        (24, vec![0xA1, 4, 0, 0], false),
        (25, vec![32, 8, 0, 0], false),
        (25, vec![0x85, 4, 0, 0], false),
        (26, vec![7, 99, 14, 0], false),
        (26, vec![0x87, 8, 0, 0], false),
        (26, excluded(7, 33), false),
        (26, entry(7), false),
        (26, vec![7, 8, 3, 0, 0x49, 0, 1, 1], false),
        (26, short_as(0), false),
        (26, marked(long_as(23_456)), false),
        (23, vec![32], true),
        (23, vec![0, 0, 0], true),
        (23, long_as(9)[..4].to_vec(), true),
        (23, excluded(7, 33)[..7].to_vec(), true),
        (23, is_is(&[1; 13])[..16].to_vec(), true),
    ]
}

/// Each fault after none, one and more subobjects inside, at many offsets of the
/// EXRS in the list.
#[test]
fn each_refusal_inside_at_each_offset() {
    let profile = file(1, &[domain(100, 0, &[])], &[]);
    let mut counts = Counts::default();
    for (number, wrong, last) in faults_inside() {
        for inside in 0..=62 {
            let after = if last { vec![] } else { short_as(9) };
            let pieces = [short_as(9).repeat(inside), wrong.clone(), after];
            if 4 + pieces.concat().len() > 255 {
                continue;
            }
            for before in [0, 1, 2, 3, 50, 100, 150, 190] {
                let nothing = short_as(100).repeat(before);
                let list = [nothing, exrs(&pieces), vec![0; 8]].concat();
                if list.len() > 1_024 {
                    continue;
                }
                let place = 4 * (before + 1 + inside) as u32;
                let which = format!("{wrong:02X?}, {inside} and {before} before");
                let found = verdict(&read(&profile, 0, &list, &which));
                assert_eq!(found, (number, place), "{which}");
                counts.add(found);
            }
        }
    }
    counts.cover("EXRS, each refusal inside", &[23, 24, 25, 26]);
    for number in 23..=26 {
        assert!(counts.places(number) >= 230, "{number}");
    }
}

/// Each fault of an EXRS itself, and what is left over, after any number of
/// subobjects that add nothing.
#[test]
fn each_refusal_of_an_exrs_at_each_offset() {
    let profile = file(1, &[domain(100, 0, &[])], &[]);
    let mut counts = Counts::default();
    let fine = exrs(&[marked(short_as(9))]);
    for (number, wrong, after) in [
        (23, vec![33], vec![]),
        (23, vec![0xA1, 0, 0], vec![]),
        (23, fine[..7].to_vec(), vec![]),
        (23, vec![33, 9, 0, 0, 32, 4, 0, 9], vec![]),
        (25, vec![33, 3, 0, 0], vec![0xFF; 5]),
        (26, vec![33, 4, 0, 0], vec![0xFF; 5]),
        (27, marked(fine.clone()), vec![0xFF; 5]),
        (27, vec![0xA1, 0, 0, 0], vec![0xFF; 5]),
        (42, fine.clone(), vec![]),
        (42, fine.clone(), [entry(7), fine.clone()].concat()),
        (42, fine.clone(), short_as(100)),
        (32, entry(7), fine.clone()),
        (32, entry(7), [short_as(100), fine.clone()].concat()),
    ] {
        for before in 0..=(1_024 - wrong.len() - after.len()) / 4 {
            let list = [short_as(100).repeat(before), wrong.clone(), after.clone()];
            let expected = (number, 4 * before as u32);
            let which = format!("{expected:?}");
            let found = verdict(&read(&profile, 0, &list.concat(), &which));
            assert_eq!(found, expected, "{wrong:02X?}");
            counts.add(found);
        }
    }
    counts.cover("EXRS, each refusal of its own", &[23, 25, 26, 27, 32, 42]);
}

/// Every list of up to five subobjects out of nine, two of them EXRS.
#[test]
fn every_short_list_of_nine_subobjects() {
    let pieces = [
        short_as(64496),
        long_as(64497),
        short_as(64498),
        long_as(65536),
        ospf(4),
        is_is(&[0x49, 0, 1]),
        entry(7),
        exrs(&[short_as(9)]),
        exrs(&[marked(excluded(7, 32)), short_as(64498)]),
    ];
    let profile = five_domains();
    let mut counts = Counts::default();
    for ingress in [0, 1, 3] {
        for length in 0..=5 {
            for code in 0..pieces.len().pow(length) {
                let digit = |i| code / pieces.len().pow(i) % pieces.len();
                let list: Vec<u8> = (0..length).flat_map(|i| pieces[digit(i)].clone()).collect();
                let which = format_args!("from {ingress}, {length} subobjects, {code}");
                counts.add(verdict(&read(&profile, ingress, &list, which)));
            }
        }
    }
    counts.cover("EXRS, short lists", &[0, 28, 29, 30, 32, 42]);
}

/// The longest EXRS there is, one byte more of it, and lists around 1,024 bytes
/// that EXRS fill up.
#[test]
fn the_longest_exrs_and_lists() {
    let profile = five_domains();
    let longest = exrs(&vec![short_as(9); 62]);
    assert_eq!(longest.len(), 252);
    let to = |exrs: &[u8]| read(&profile, 0, &[exrs, &short_as(64498)].concat(), exrs.len());
    let stops = |exrs: &[u8]| Ok(vec![(0, None, vec![]), (3, None, exrs.to_vec())]);
    assert_eq!(to(&longest), stops(&longest));
    for more in 1..=3 {
        let list = exrs(&[short_as(9).repeat(62), vec![32; more]]);
        assert_eq!(to(&list), Err((23, 252)), "{more}");
    }
    let rest = exrs(&vec![short_as(9); 2]);
    let full = [longest.repeat(4), rest].concat();
    assert_eq!(full.len(), 1_020);
    assert_eq!(to(&full), stops(&full));
    for more in 1..=8 {
        let over = [&full[..], &short_as(64498), &vec![0; more]].concat();
        assert_eq!(read(&profile, 0, &over, more), Err((22, 0)), "{more}");
    }
    // Fifteen domains, each with EXRS, in 1,024 bytes.
    let areas: Vec<_> = (0..16).map(|i| domain(64496, 1, &[0, 0, 0, i])).collect();
    let profile = file(0, &areas, &[]);
    let own = |i: u32| exrs(&vec![marked(short_as(i as u16)); 14 + usize::from(i == 1)]);
    let list: Vec<u8> = (1..16).flat_map(|i| [own(i), ospf(i)].concat()).collect();
    assert_eq!(list.len(), 1_024);
    let expected: Vec<_> = (0..16)
        .map(|i| match i {
            0 => (0, None, vec![]),
            _ => (i as u16, None, own(i)),
        })
        .collect();
    assert_eq!(read(&profile, 0, &list, "15 EXRS"), Ok(expected));
}
