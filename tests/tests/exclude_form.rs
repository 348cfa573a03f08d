//! The form of exclude lists, through tree: every small change to a few lists,
//! lists with one fault at a known offset, and the edges of each rule.

use reference::generate::Random;
use reference::Request;
use std::fmt::Display;
use tests::by_hand::{ask, profile_w, P, Q, S, SHORT, T, U};
use tests::compare::{seeds, Counts};
use tests::lists::{excluded, is_is, long_as, marked, ospf, short_as, verdict};
use tests::tree::{build, Built};

/// W's tree without what the list excludes.
#[track_caller]
fn without(exclude: &[u8], which: impl Display) -> Built {
    let w = profile_w();
    let request = Request {
        exclude,
        ..ask(&w, &SHORT)
    };
    build(&request, which)
}

/// Number and place of that.
#[track_caller]
fn check(exclude: &[u8], which: impl Display) -> (u32, u32) {
    verdict(&without(exclude, which))
}

/// The nodes of it that are reachable.
#[track_caller]
fn reachable(exclude: &[u8]) -> Vec<u32> {
    let tree = without(exclude, format_args!("{exclude:02X?}")).expect("it is accepted");
    let reached = tree.entries.iter().filter(|entry| entry.2.is_some());
    reached.map(|entry| entry.1).collect()
}

// Every small change to a few lists.

/// Lists with each type of subobject; each leaves some entry reachable.
fn few_lists() -> [Vec<u8>; 3] {
    [
        [
            excluded(Q, 32),
            marked(short_as(64496)),
            ospf(4),
            marked(is_is(&[0x49, 0, 1, 0, 2])),
        ]
        .concat(),
        [
            marked(excluded(T, 31)),
            long_as(64499),
            is_is(&[0; 13]),
            short_as(9),
        ]
        .concat(),
        [
            marked(ospf(u32::MAX)),
            marked(long_as(64496)),
            is_is(&[7]),
            excluded(0, 2),
        ]
        .concat(),
    ]
}

#[test]
fn any_byte_of_a_few_lists_changed_to_any_other() {
    let mut counts = Counts::default();
    for (index, list) in few_lists().iter().enumerate() {
        assert_eq!(check(list, index), (0, 0));
        for at in 0..list.len() {
            let mut changed = list.clone();
            for value in 0..=255 {
                changed[at] = value;
                let which = format_args!("list {index}, byte {at} set to {value}");
                counts.add(check(&changed, which));
            }
        }
    }
    counts.cover(
        "tree, exclude lists with one byte changed",
        &[0, 24, 25, 26],
    );
}

#[test]
fn a_few_lists_cut_and_filled_up_anywhere() {
    for (index, list) in few_lists().iter().enumerate() {
        for length in 0..=list.len() {
            for after in [&[][..], &[0], &[1, 8], &[0xA0, 4, 0xFB], &[0x55; 9]] {
                let changed = [&list[..length], after].concat();
                check(
                    &changed,
                    format_args!("list {index}, {length} bytes and {after:?}"),
                );
            }
        }
    }
}

/// Types of either X bit and lengths, with enough bytes after them for any type.
#[test]
fn every_first_and_second_byte() {
    let mut list = [0; 24];
    list[2] = 3;
    for first in 0..=255 {
        for second in 0..=255 {
            list[..2].copy_from_slice(&[first, second]);
            check(&list, format_args!("{first}, {second}"));
        }
    }
}

// Lists with one fault at a known offset.

/// What is wrong in form, whatever follows. Those that are cut stand last.
fn faults() -> Vec<(u32, Vec<u8>)> {
    vec![
        (24, vec![33, 4, 0, 0]),
        (24, vec![0x80, 8, 0, 0]),
        (25, vec![5, 4, 0, 0]),
        (25, vec![0xA0, 8, 0, 0]),
        (25, vec![7, 12, 3, 0]),
        (26, vec![7, 8, 0, 0]),
        (26, vec![0x87, 20, 14, 0]),
        (26, vec![0x87, 8, 3, 0, 0x49, 0, 1, 1]),
        (26, excluded(S, 33)),
        (26, marked(vec![1, 8, 0, 0, 0, 0, 32, 0])),
        (26, short_as(23_456)),
        (26, marked(long_as(0))),
        (23, vec![5, 8, 0]),
        (23, vec![0xFF]),
        (23, marked(long_as(64496))[..7].to_vec()),
        (23, is_is(&[1; 5])[..8].to_vec()),
    ]
}

/// Each fault after none, one, two and more subobjects, until the list is full.
#[test]
fn each_refusal_at_each_offset() {
    let mut counts = Counts::default();
    for (number, wrong) in faults() {
        let after: &[u8] = if number == 23 { &[] } else { &[0xFF; 5] };
        for before in 0..=(1024 - wrong.len() - after.len()) / 4 {
            let fine = [short_as(64496), marked(short_as(9))].concat();
            let fine = &fine.repeat(128)[..4 * before];
            let list = [fine, &wrong, after].concat();
            let expected = (number, 4 * before as u32);
            let found = check(&list, format_args!("{expected:?}"));
            assert_eq!(found, expected, "{wrong:02X?}");
            counts.add(found);
        }
    }
    counts.cover("tree, each refusal at each offset", &[23, 24, 25, 26]);
    for number in 23..=26 {
        assert!(counts.places(number) >= 250, "{number}");
    }
}

/// Any subobjects that are fine, then one that isn't, then anything.
#[test]
fn one_fault_in_any_list() {
    let mut counts = Counts::default();
    for seed in seeds(10_000) {
        let random = &mut Random::new(seed, 109);
        let mut list = Vec::new();
        for _ in 0..random.pick(&[0, 1, 2, 5, 20]) {
            list.extend(fine(random));
        }
        let faults = faults();
        let (number, wrong) = &faults[random.below(faults.len())];
        let expected = (*number, list.len() as u32);
        list.extend(wrong);
        if *number != 23 {
            let more = random.below(40);
            list.extend(random.bytes(more));
        }
        let found = check(&list, format_args!("seed {seed}"));
        assert_eq!(found, expected, "{list:02X?}");
        counts.add(found);
    }
    counts.cover("tree, one fault in an exclude list", &[23, 24, 25, 26]);
}

/// A subobject of any type, with anything in its ignored bytes.
fn fine(random: &mut Random) -> Vec<u8> {
    let ignored = [random.byte(), random.byte()];
    let node = random.pick(&[S, P, Q, T, U, 0, u32::MAX, 0x0A00_0001]);
    let mut piece = match random.below(5) {
        0 => excluded(node, random.between(0, 32) as u8),
        1 => long_as(random.pick(&[64496, 64497, 64498, 9])),
        2 => short_as(random.pick(&[64496, 64497, 64498, 9])),
        3 => ospf(random.bits()),
        _ => {
            let length = random.between(1, 13);
            is_is(&random.bytes(length))
        }
    };
    match piece[0] {
        5 | 6 => piece[2..4].copy_from_slice(&ignored),
        7 => piece[3] = ignored[0],
        _ => {}
    }
    piece[0] |= random.pick(&[0, 0x80]);
    piece
}

// The edges of each rule.

#[test]
fn order_of_checks_within_a_subobject() {
    for (wrong, number) in [
        (&[1, 8, 0][..], 23), // under 4 left, whatever they are
        (&[0x7F, 0, 0], 23),
        (&[0x7F, 0, 0, 0], 24), // type before length
        (&[8, 8, 14, 0], 24),
        (&[7, 99, 0, 0], 26), // area length before length
        (&[7, 20, 14, 0], 26),
        (&[7, 12, 3, 0], 25), // length before past the end
        (&[7, 8, 5, 0, 1, 1, 1, 1], 25),
        (&[1, 4, 0, 0], 25),
        (&[32, 8, 0, 0], 25),
        (&[5, 8, 0, 0], 23),           // past the end
        (&[1, 8, 0, 0, 0, 0, 33], 23), // past the end before prefix length
        (&[7, 8, 1, 0, 1, 1, 1], 23),  // past the end before padding
        (&[1, 8, 0, 0, 0, 0, 33, 1], 26),
        (&[1, 8, 0, 0, 0, 0, 32, 0], 26),
        (&[7, 8, 3, 0, 0x49, 0, 1, 1], 26),
    ] {
        for wrong in [wrong.to_vec(), marked(wrong.to_vec())] {
            assert_eq!(check(&wrong, "alone"), (number, 0), "{wrong:?}");
            let later = [&marked(long_as(64496)), &wrong[..]].concat();
            assert_eq!(check(&later, "later"), (number, 8), "{wrong:?}");
        }
    }
}

#[test]
fn every_prefix_length_and_attribute() {
    for prefix in 0..=255 {
        for attribute in 0..=255 {
            let mut list = excluded(7, prefix);
            list[7] = attribute;
            let expected = if prefix <= 32 && attribute == 1 {
                (0, 0)
            } else {
                (26, 0)
            };
            let which = format!("prefix length {prefix}, attribute {attribute}");
            assert_eq!(check(&list, &which), expected, "{which}");
        }
    }
}

#[test]
fn every_is_is_length_with_good_and_bad_padding() {
    for area_length in 1..=13 {
        let list = [short_as(9), is_is(&[0x49; 13][..area_length])].concat();
        for at in 8 + area_length..list.len() {
            for value in 0..=255 {
                let mut padded = list.clone();
                padded[at] = value;
                padded[7] = value;
                let expected = if value == 0 { (0, 0) } else { (26, 4) };
                let which = format!("area of {area_length}, byte {at} is {value}");
                assert_eq!(check(&padded, &which), expected, "{which}");
            }
        }
    }
}

/// A list of every type of subobject, cut to every length.
#[test]
fn every_length_of_a_list() {
    let round = [
        short_as(9),
        is_is(&[0x49; 13]),
        long_as(9),
        marked(short_as(9)),
    ];
    // The rounds are 36 bytes long; the subobjects of each start at these.
    let starts = [0, 4, 24, 32];
    let list = round.concat().repeat(34);
    for length in 0..=1_200 {
        let last = starts.iter().rfind(|&&start| start <= length % 36);
        let cut = length % 36 - last.expect("0 is a start");
        let expected = match length {
            1025.. => (22, 1),
            _ if cut == 0 => (0, 0),
            _ => (23, (length - cut) as u32),
        };
        assert_eq!(check(&list[..length], length), expected, "{length} bytes");
    }
}

/// In a list of 1,024 bytes every subobject counts, from the first to the last.
#[test]
fn every_place_of_a_full_list() {
    let nodes = [S, P, Q, T, U];
    for at in 0..128 {
        let mut list = excluded(7, 32).repeat(128);
        list.splice(8 * at..8 * at + 8, excluded(Q, 32));
        assert_eq!(reachable(&list), [S, P, T, U], "node at {at}");
    }
    for at in 0..256 {
        let mut list = short_as(9).repeat(256);
        assert_eq!(reachable(&list), nodes);
        list.splice(4 * at..4 * at + 4, short_as(64496));
        assert_eq!(reachable(&list), [P, Q, T, U], "AS at {at}");
    }
}

#[test]
fn ignored_bytes_are_not_looked_at() {
    for (list, left) in [
        (&[5, 8, 0xFF, 0xFF, 0, 0, 0xFB, 0xF1][..], &[T, U][..]),
        (&[5, 8, 1, 2, 0, 0, 0xFB, 0xF0], &[P, Q, T, U]),
        // Round 2 leaves all of them.
        (&[0x85, 8, 1, 2, 0, 0, 0xFB, 0xF0], &[S, P, Q, T, U]),
        (&[6, 8, 0xFF, 0xFF, 0, 0, 0, 4], &[S, P, Q, T, U]),
        (&[7, 8, 3, 0xFF, 0x49, 0, 1, 0], &[S, P, Q, T, U]),
        // 192.0.2.20/30 with bits set after it: T, U.
        (&[1, 8, 0xC0, 0, 2, 23, 30, 1], &[]),
        (&[1, 8, 0xC0, 0, 2, 23, 31, 1], &[S, P, Q, T]),
    ] {
        assert_eq!(reachable(list), left, "{list:02X?}");
    }
}
