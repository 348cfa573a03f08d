//! The rules for lists, each on a list made by hand for it.

use crate::common;
use common::*;
use reference::generate::Reading;

/// 0: 64496; 1 and 2: 64497 with OSPF areas 0 and 4; 3: 64498 with an IS-IS
/// area; 4: 65536.
fn profile() -> Vec<u8> {
    let domains = [
        domain(64496, 0, &[]),
        domain(64497, 1, &[0, 0, 0, 0]),
        domain(64497, 1, &[0, 0, 0, 4]),
        domain(64498, 2, &[0x49, 0, 1]),
        domain(65536, 0, &[]),
    ];
    file(0, &domains, &[])
}

fn as_number(value: u32) -> Vec<u8> {
    [vec![5, 8, 0, 0], value.to_be_bytes().to_vec()].concat()
}

fn ospf(area: u8) -> Vec<u8> {
    vec![6, 8, 0, 0, 0, 0, 0, area]
}

fn is_is() -> Vec<u8> {
    vec![7, 8, 3, 0, 0x49, 0, 1, 0]
}

fn entry(address: u32) -> Vec<u8> {
    [vec![1, 8], address.to_be_bytes().to_vec(), vec![32, 0]].concat()
}

fn read_from(ingress: u16, pieces: &[Vec<u8>]) -> Reading {
    read(&profile(), ingress, &pieces.concat())
}

fn bare(domains: &[u16]) -> Reading {
    without_exrs(domains.iter().map(|&d| (d, None)))
}

#[test]
fn order_of_checks_within_a_subobject() {
    for (list, number) in [
        (&[1u8, 8, 0][..], 23), // under 4 left, whatever they are
        (&[0x7F, 0, 0], 23),
        (&[0x82, 8, 0, 0], 24),  // type before L
        (&[0x87, 8, 14, 0], 27), // L before area length
        (&[7, 99, 0, 0], 26),    // area length before length
        (&[7, 99, 14, 0], 26),
        (&[7, 12, 3, 0], 25), // length before past the end
        (&[1, 4, 0, 0], 25),
        (&[32, 8, 0, 0], 25),
        (&[5, 8, 0, 0], 23),           // past the end
        (&[1, 8, 0, 0, 0, 0, 33], 23), // past the end before prefix
        (&[7, 8, 1, 0, 1, 1, 1], 23),  // past the end before padding
        (&[1, 8, 0, 0, 0, 0, 31, 0], 26),
        (&[7, 8, 3, 0, 0x49, 0, 1, 1], 26),
    ] {
        assert_eq!(read(&profile(), 0, list), Err((number, 0)), "{list:?}");
        let later = [as_number(64496), list.to_vec()].concat();
        assert_eq!(read(&profile(), 0, &later), Err((number, 8)), "{list:?}");
    }
}

#[test]
fn form_goes_before_meaning() {
    assert_eq!(
        read_from(0, &[as_number(1), vec![0, 0, 0, 0]]),
        Err((24, 8))
    );
    let profile = profile();
    let (unknown, short) = (as_number(1), [1, 8, 0]);
    let mut request = ask(&profile, &unknown);
    request.exclude = &short;
    assert_eq!(first(&request, 2).1[0], 0);
    assert_eq!(
        first(&request, 2).0,
        23,
        "form of the exclude list before meaning"
    );
    let include = [as_number(64496), vec![9, 9, 9, 9]].concat();
    request.include = &include;
    assert_eq!(
        (first(&request, 2).0, first(&request, 2).1[0]),
        (24, 8),
        "include first"
    );
}

#[test]
fn ignored_bytes_are_not_looked_at() {
    let noisy = vec![5, 8, 0xFF, 0xFF, 0, 0, 0xFB, 0xF1];
    let area = vec![6, 8, 0xFF, 0xFF, 0, 0, 0, 4];
    let is_is = vec![7, 8, 3, 0xFF, 0x49, 0, 1, 0];
    let pin = vec![1, 8, 1, 2, 3, 4, 32, 0xFF];
    let list = [noisy, pin, area, vec![32, 4, 0xFB, 0xF2], is_is];
    // The entry constraint stands between AS and area, so the AS is alone.
    assert_eq!(read_from(0, &list), Err((29, 0)));
    let list = [
        list[1].clone(),
        list[0].clone(),
        list[2].clone(),
        list[3].clone(),
        list[4].clone(),
    ];
    assert_eq!(
        read_from(0, &list),
        without_exrs([(0, None), (2, Some(0x0102_0304)), (3, None)])
    );
}

#[test]
fn all_lengths_of_an_is_is_area() {
    for length in 1..=13u8 {
        let area: Vec<u8> = (1..=length).collect();
        let profile = file(0, &[domain(64496, 0, &[]), domain(64497, 2, &area)], &[]);
        let whole = 4 + [0, 4, 4, 4, 4, 8, 8, 8, 8, 12, 12, 12, 12, 16][usize::from(length)];
        let mut list = [as_number(64497), vec![7, whole as u8, length, 0], area].concat();
        list.resize(8 + whole, 0);
        assert_eq!(read(&profile, 0, &list), bare(&[0, 1]), "{length}");
        for at in 12 + usize::from(length)..list.len() {
            let mut padded = list.clone();
            padded[at] = 1;
            assert_eq!(read(&profile, 0, &padded), Err((26, 8)), "{length}");
        }
    }
}

#[test]
fn an_as_alone_names_its_only_domain() {
    assert_eq!(read_from(0, &[as_number(65536)]), bare(&[0, 4]));
    assert_eq!(
        read_from(0, &[as_number(64498)]),
        bare(&[0, 3]),
        "with an area"
    );
    assert_eq!(read_from(0, &[as_number(64497)]), Err((29, 0)));
    assert_eq!(
        read_from(1, &[as_number(64497)]),
        Err((29, 0)),
        "also from inside"
    );
    assert_eq!(read_from(0, &[as_number(9)]), Err((28, 0)));
    assert_eq!(
        read_from(0, &[as_number(9), as_number(64498)]),
        Err((28, 0))
    );
    assert_eq!(read_from(0, &[as_number(9), ospf(0)]), Err((28, 8)));
}

#[test]
fn an_area_belongs_to_the_current_as() {
    assert_eq!(read_from(1, &[ospf(4)]), bare(&[1, 2]));
    assert_eq!(read_from(0, &[ospf(4)]), Err((28, 0)));
    assert_eq!(read_from(0, &[as_number(64498), ospf(0)]), Err((28, 8)));
    assert_eq!(
        read_from(0, &[as_number(64497), ospf(4), ospf(0)]),
        bare(&[0, 2, 1])
    );
    // The current AS stays what it was after an area of it.
    assert_eq!(
        read_from(3, &[as_number(64497), ospf(4), is_is()]),
        Err((28, 16))
    );
    // Same bytes, other kind.
    assert_eq!(
        read_from(0, &[as_number(64497), vec![7, 8, 4, 0, 0, 0, 0, 4]]),
        Err((28, 8))
    );
}

#[test]
fn naming_the_domain_one_is_in_adds_nothing() {
    assert_eq!(read_from(0, &[]), bare(&[0]));
    assert_eq!(read_from(0, &[as_number(64496)]), bare(&[0]));
    let twice = [
        as_number(64497),
        ospf(0),
        ospf(0),
        as_number(64497),
        ospf(0),
    ];
    assert_eq!(read_from(1, &twice), bare(&[1]));
    assert_eq!(
        read_from(0, &[as_number(65536), as_number(65536)]),
        bare(&[0, 4])
    );
}

#[test]
fn an_entry_constraint_waits() {
    let waits = [
        entry(7),
        as_number(64496),
        as_number(65536),
        as_number(64498),
    ];
    assert_eq!(
        read_from(0, &waits),
        without_exrs([(0, None), (4, Some(7)), (3, None)])
    );
    // One between AS and area leaves the AS alone; the area then adds nothing.
    let between = [as_number(64498), entry(7), is_is(), as_number(65536)];
    assert_eq!(
        read_from(0, &between),
        without_exrs([(0, None), (3, None), (4, Some(7))])
    );
}

#[test]
fn second_and_left_over_entry_constraints() {
    assert_eq!(read_from(0, &[entry(7), entry(7)]), Err((32, 8)));
    assert_eq!(
        read_from(0, &[entry(7), as_number(64496), entry(8)]),
        Err((32, 16))
    );
    assert_eq!(read_from(0, &[entry(7)]), Err((32, 0)));
    assert_eq!(
        read_from(0, &[as_number(65536), entry(7), as_number(65536)]),
        Err((32, 8))
    );
    assert_eq!(
        read_from(0, &[entry(7), as_number(9)]),
        Err((28, 8)),
        "left over is told last"
    );
}

#[test]
fn a_domain_that_comes_back_is_told_at_its_area() {
    let back = [
        as_number(64497),
        ospf(0),
        as_number(64498),
        as_number(64497),
        ospf(0),
    ];
    assert_eq!(read_from(0, &back), Err((30, 32)));
    assert_eq!(
        read_from(0, &[as_number(65536), as_number(64496)]),
        Err((30, 8))
    );
}

#[test]
fn seventeen_domains() {
    let domains: Vec<Vec<u8>> = (0..20).map(|i| domain(100, 1, &[0, 0, 0, i])).collect();
    let profile = file(1, &domains, &[]);
    let mut list: Vec<u8> = (1..16).flat_map(ospf).collect();
    let all: Vec<u16> = (0..16).collect();
    assert_eq!(read(&profile, 0, &list), bare(&all));
    list.extend(ospf(15));
    assert_eq!(read(&profile, 0, &list), bare(&all), "adds nothing");
    let coming_back = [list.clone(), ospf(3)].concat();
    assert_eq!(
        read(&profile, 0, &coming_back),
        Err((30, 128)),
        "30 before 31"
    );
    let one_more = [list.clone(), ospf(16)].concat();
    assert_eq!(read(&profile, 0, &one_more), Err((31, 128)));
    let with_as = [list.clone(), as_number(100), ospf(16)].concat();
    assert_eq!(read(&profile, 0, &with_as), Err((31, 136)), "at the area");
    let unknown = [list, ospf(99)].concat();
    assert_eq!(read(&profile, 0, &unknown), Err((28, 128)), "28 before 31");
}

#[test]
fn length_of_a_list() {
    let nothing: Vec<u8> = as_number(64496).repeat(128);
    assert_eq!(nothing.len(), 1024);
    assert_eq!(read(&profile(), 0, &nothing), bare(&[0]));
    assert_eq!(
        read(&profile(), 0, &[nothing.clone(), vec![5]].concat()),
        Err((22, 0))
    );
    assert_eq!(
        read(&profile(), 5, &[nothing, vec![5]].concat()),
        Err((20, 0))
    );
}

#[test]
fn capacity_is_judged_on_each_buffer() {
    let list = [as_number(64498), as_number(65536)].concat();
    for (rooms, number) in [
        ([3, 3, 3, 3], 0),
        ([2, 3, 3, 3], 34),
        ([3, 2, 3, 3], 34),
        ([3, 3, 2, 3], 34),
        ([3, 3, 3, 2], 34),
    ] {
        let (mut domains, mut pinned) = (vec![0; rooms[0]], vec![0; rooms[1]]);
        let (mut pins, mut exrs_counts) = (vec![9; rooms[2]], vec![9; rooms[3]]);
        let mut numbers = [9; 3];
        let answer = reference::read_include(
            &profile(),
            0,
            &list,
            &mut domains,
            &mut pinned,
            &mut pins,
            &mut exrs_counts,
            &mut [],
            &mut numbers,
        );
        let expected = if number == 0 { [0, 3, 0] } else { [0; 3] };
        assert_eq!((answer, numbers), (number, expected));
        let left = |room| match number {
            0 => vec![0; 3],
            _ => vec![9; room],
        };
        assert_eq!((pins, exrs_counts), (left(rooms[2]), left(rooms[3])));
    }
}

#[test]
fn the_writer() {
    let write = |domains: &[u16], pinned: &[u8], pins: &[u32], room: usize| {
        let (mut out, mut numbers) = (vec![0xAA; room], [9; 2]);
        let number = reference::write_list(
            &profile(),
            domains,
            pinned,
            pins,
            &vec![0; domains.len()],
            &[],
            &mut out,
            &mut numbers,
        );
        (number, numbers, out)
    };
    let expected = [
        as_number(64497),
        ospf(4),
        ospf(0),
        entry(0x0102_0304),
        as_number(64498),
        is_is(),
        entry(5),
        as_number(65536),
    ]
    .concat();
    let given = ([2, 1, 3, 4], [0, 0, 1, 1], [0, 0xFFFF, 0x0102_0304, 5]);
    let (number, numbers, out) = write(&given.0, &given.1, &given.2, expected.len());
    assert_eq!(
        (number, numbers, out),
        (0, [0, expected.len() as u32], expected.clone())
    );
    let short = write(&given.0, &given.1, &given.2, expected.len() - 1);
    assert_eq!(short, (34, [0, 0], vec![0xAA; expected.len() - 1]));
    for (domains, pinned, pins) in [
        (&[][..], &[][..], &[][..]),
        (&[5], &[0], &[0]),
        (&[1, 2, 1], &[0; 3], &[0; 3]),
        (&[1, 2], &[1, 0], &[0; 2]),
        (&[1, 2], &[0, 2], &[0; 2]),
        (&[1, 2], &[0], &[0; 2]),
        (&[1, 2], &[0; 2], &[0; 3]),
        (&[1], &[0; 2], &[0; 2]),
    ] {
        assert_eq!(
            write(domains, pinned, pins, 0),
            (35, [0, 0], vec![]),
            "{domains:?}"
        );
    }
}

#[test]
fn the_writer_takes_16_domains() {
    let domains: Vec<Vec<u8>> = (0..20).map(|i| domain(100 + i, 0, &[])).collect();
    let profile = file(1, &domains, &[]);
    let write = |count: usize| {
        let all: Vec<u16> = (0..count as u16).collect();
        let (mut out, mut numbers) = ([0; 200], [9; 2]);
        let (pinned, words) = (vec![0; count], vec![0; count]);
        let number = reference::write_list(
            &profile,
            &all,
            &pinned,
            &words,
            &words,
            &[],
            &mut out,
            &mut numbers,
        );
        (number, numbers[1])
    };
    assert_eq!(write(16), (0, 128));
    assert_eq!(write(17), (35, 0));
}
