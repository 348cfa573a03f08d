//! The rules of write_list: every short sequence of a few domains, the causes
//! of 35, and what is written, at the edges of each rule.

use tests::by_hand::{domain, file};
use tests::compare::Counts;
use tests::lists::{entry, is_is, long_as, ospf, read, verdict};
use tests::writing::{old_bytes, sequence, write, WriteList, Written, LONGEST};

// Every short sequence of a few domains.

/// 0: 64495; 1 and 2: 64512 with OSPF areas 0 and 4; 3: 64513 with an IS-IS
/// area; 4: an AS whose last two bytes are those of 64495.
fn five_domains() -> Vec<u8> {
    let domains = [
        domain(64495, 0, &[]),
        domain(64512, 1, &[0, 0, 0, 0]),
        domain(64512, 1, &[0, 0, 0, 4]),
        domain(64513, 2, &[0x49, 0, 1]),
        domain(65_536 + 64495, 0, &[]),
    ];
    file(1, &domains, &[])
}

/// The AS of the domain `index` of `five_domains`, and how its area is written.
fn as_and_area(index: u16) -> (u32, Vec<u8>) {
    match index {
        0 => (64495, Vec::new()),
        1 => (64512, ospf(0)),
        2 => (64512, ospf(4)),
        3 => (64513, is_is(&[0x49, 0, 1])),
        _ => (65_536 + 64495, Vec::new()),
    }
}

/// Every sequence of up to four of the five domains and an index too high, with
/// every choice of marks out of 0, 1 and 2.
#[test]
fn every_short_sequence() {
    let profile = five_domains();
    let nodes = [9, 0, 0x0102_0304, u32::MAX];
    let mut counts = Counts::default();
    for count in 0..=4 {
        for code in 0..18usize.pow(count) {
            let digits = (0..count).map(|i| code / 18usize.pow(i) % 18);
            let (domains, pinned): (Vec<u16>, Vec<u8>) = digits
                .map(|digit| ((digit % 6) as u16, (digit / 6) as u8))
                .unzip();
            let pins = &nodes[..domains.len()];
            let written = write(&profile, &domains, &pinned, pins);
            assert_eq!(
                written,
                expected(&domains, &pinned, pins),
                "{domains:?}, {pinned:?}"
            );
            counts.add(verdict(&written));
            if let Ok(list) = written {
                let reading = read(&profile, domains[0], &list, "read back");
                assert_eq!(reading, sequence(&domains, &pinned, pins), "{list:02X?}");
            }
        }
    }
    counts.cover("write_list, short sequences", &[0, 35]);
}

/// What the writer must give for `five_domains`.
fn expected(domains: &[u16], pinned: &[u8], pins: &[u32]) -> Written {
    let twice = (1..domains.len()).any(|i| domains[..i].contains(&domains[i]));
    let bad_index = domains.iter().any(|&index| index > 4);
    let bad_mark = pinned.iter().any(|&mark| mark > 1);
    if domains.is_empty() || twice || bad_index || bad_mark || pinned[0] == 1 {
        return Err((35, 0));
    }
    let mut list = Vec::new();
    let mut as_before = None;
    for (i, &index) in domains.iter().enumerate() {
        let (as_number, area) = as_and_area(index);
        if pinned[i] == 1 {
            list.extend(entry(pins[i]));
        }
        if as_before != Some(as_number) {
            list.extend(long_as(as_number));
        }
        list.extend(area);
        as_before = Some(as_number);
    }
    Ok(list)
}

// The causes of 35.

#[test]
fn every_count_of_the_three_lists() {
    let many: Vec<_> = (0..20).map(|i| domain(100 + i, 0, &[])).collect();
    let profile = file(1, &many, &[]);
    let (domains, pinned, pins): (Vec<u16>, _, _) = ((0..18).collect(), [0; 18], [7; 18]);
    for a in 0..=18 {
        for b in 0..=18 {
            for c in 0..=18 {
                let written = write(&profile, &domains[..a], &pinned[..b], &pins[..c]);
                let fits = a == b && b == c && (1..=16).contains(&a);
                let expected = if fits { (0, 0) } else { (35, 0) };
                assert_eq!(verdict(&written), expected, "{a}, {b}, {c}");
            }
        }
    }
}

#[test]
fn every_index() {
    let profile = five_domains();
    for at in 0..3 {
        for index in 0..=u16::MAX {
            let mut domains = [4, 2, 0];
            domains[at] = index;
            let written = write(&profile, &domains, &[0; 3], &[0; 3]);
            assert_eq!(written, expected(&domains, &[0; 3], &[0; 3]), "{domains:?}");
        }
    }
}

#[test]
fn every_mark() {
    let profile = five_domains();
    for at in 0..5 {
        for mark in 0..=255 {
            let mut pinned = [0, 1, 0, 1, 0];
            pinned[at] = mark;
            let (domains, pins) = ([3, 0, 1, 4, 2], [5; 5]);
            let written = write(&profile, &domains, &pinned, &pins);
            assert_eq!(written, expected(&domains, &pinned, &pins), "{pinned:?}");
        }
    }
}

#[test]
fn a_domain_twice_at_any_two_places() {
    let many: Vec<_> = (0..17).map(|i| domain(100, 1, &[0, 0, 0, i])).collect();
    let profile = file(1, &many, &[]);
    for count in 2..=16 {
        let domains: Vec<u16> = (1..=count as u16).rev().collect();
        let (marks, nodes) = (vec![0; count], vec![0; count]);
        assert_eq!(verdict(&write(&profile, &domains, &marks, &nodes)), (0, 0));
        for (first, second) in (0..count).flat_map(|j| (0..j).map(move |i| (i, j))) {
            let mut twice = domains.clone();
            twice[second] = twice[first];
            let written = write(&profile, &twice, &marks, &nodes);
            assert_eq!(written, Err((35, 0)), "{twice:?}");
        }
    }
}

#[test]
fn checks_come_in_order() {
    let (profile, mut damaged) = (five_domains(), five_domains());
    damaged[12 + 20 + 4] = 3;
    for (profile, domains, capacity, expected) in [
        (&damaged, &[5, 5][..], 0, Err((14, 1))),
        (&profile, &[5, 5], 0, Err((35, 0))),
        (&profile, &[3, 3], 0, Err((35, 0))),
        (&profile, &[4], 0, Err((34, 0))),
        (&profile, &[4], 7, Err((34, 0))),
        (&profile, &[4], 8, Ok(long_as(65_536 + 64495))),
    ] {
        let written = WriteList {
            profile,
            domains,
            pinned: &[0, 0][..domains.len()],
            pins: &[0, 0][..domains.len()],
            exrs_counts: &[0, 0][..domains.len()],
            exrs: &[],
            out: old_bytes(capacity),
        }
        .write(format_args!("{expected:?}"));
        assert_eq!(written, expected);
    }
}

// What is written.

#[test]
fn every_kind_and_length_of_an_area() {
    for length in 1..=13 {
        let area = &[0x49, 0, 2, 0, 3, 0, 4, 0, 5, 0, 6, 0, 0xFF][..length];
        let profile = file(0, &[domain(64496, 2, area)], &[]);
        let expected = [long_as(64496), is_is(area)].concat();
        assert_eq!(write(&profile, &[0], &[0], &[7]), Ok(expected), "{length}");
    }
    for area in [0, 1, 0x0102_0304, u32::MAX] {
        let profile = file(0, &[domain(65536, 1, &area.to_be_bytes())], &[]);
        let expected = [long_as(65536), ospf(area)].concat();
        assert_eq!(write(&profile, &[0], &[0], &[7]), Ok(expected), "{area}");
    }
}

/// Two AS that differ in one byte, one after the other.
#[test]
fn an_as_is_written_where_any_byte_of_it_differs() {
    for at in 0..4 {
        let (low, high) = (0x0101_0101, 0x0101_0101 + (1 << (8 * at)));
        let domains = [
            domain(low, 2, &[1]),
            domain(low, 2, &[1, 0]),
            domain(high, 2, &[1]),
        ];
        let profile = file(1, &domains, &[]);
        let expected = [
            long_as(low),
            is_is(&[1, 0]),
            is_is(&[1]),
            long_as(high),
            is_is(&[1]),
        ];
        let written = write(&profile, &[1, 0, 2], &[0; 3], &[0; 3]);
        assert_eq!(written, Ok(expected.concat()), "byte {at}");
    }
}

#[test]
fn a_node_without_a_mark_is_not_looked_at() {
    let profile = five_domains();
    let (domains, pinned) = ([3, 0, 1, 4, 2], [0, 1, 0, 0, 1]);
    let plain = write(&profile, &domains, &pinned, &[0, 7, 0, 0, 8]);
    let noisy = write(&profile, &domains, &pinned, &[u32::MAX, 7, 1, 9, 8]);
    assert_eq!(plain, noisy);
    assert_eq!(verdict(&plain), (0, 0));
}

/// The longest list there is, into every capacity.
#[test]
fn every_capacity() {
    let area = [0x49, 1, 2, 3, 4, 5, 6, 7, 8, 9, 10, 11, 12];
    let own: Vec<_> = (64496..64512).map(|of| domain(of, 2, &area)).collect();
    let profile = file(0, &own, &[]);
    let domains: Vec<u16> = (0..16).rev().collect();
    let mut pinned = [1; 16];
    pinned[0] = 0;
    let pins: Vec<u32> = (0..16).map(|i| 0xC000_0200 + i).collect();
    let into = |capacity| {
        let case = WriteList {
            profile: &profile,
            domains: &domains,
            pinned: &pinned,
            pins: &pins,
            exrs_counts: &[0; 16],
            exrs: &[],
            out: old_bytes(capacity),
        };
        case.write(capacity)
    };
    let list = into(LONGEST).expect("a list that fits");
    assert_eq!(list.len(), LONGEST);
    let reading = read(&profile, domains[0], &list, "the longest");
    assert_eq!(reading, sequence(&domains, &pinned, &pins));
    for capacity in 0..LONGEST {
        assert_eq!(into(capacity), Err((34, 0)), "{capacity}");
    }
    for capacity in LONGEST..=1_100 {
        assert_eq!(into(capacity).as_ref(), Ok(&list), "{capacity}");
    }
}
