//! The form of include lists through read_include: every value of the bytes
//! that a rule looks at, every length, and each refusal at each offset. The
//! library is held to the reference, and to what the rule says.

use tests::by_hand::{domain, file, without_exrs};
use tests::compare::Counts;
use tests::lists::{bare, entry, five_domains, is_is, long_as, ospf, read, short_as, verdict};

#[test]
fn every_first_and_second_byte() {
    let profile = five_domains();
    let mut list = [0; 24];
    list[2] = 3;
    for first in 0..=255 {
        for second in 0..=255 {
            list[..2].copy_from_slice(&[first, second]);
            _ = read(&profile, 0, &list, format_args!("{first}, {second}"));
        }
    }
}

#[test]
fn every_length_and_area_length_of_an_is_is_area() {
    let profile = five_domains();
    let mut counts = Counts::default();
    for length in 0..=255 {
        for area_length in 0..=255 {
            for whole in [4, 8, 12, 16, 20, 24] {
                let mut list = vec![0; whole];
                list[..4].copy_from_slice(&[7, length, area_length, 0xFF]);
                let which = format_args!("7, {length}, {area_length} of {whole} bytes");
                counts.add(verdict(&read(&profile, 3, &list, which)));
            }
        }
    }
    counts.cover("read_include, IS-IS lengths", &[23, 24, 25, 26, 28]);
}

/// Padding is zero, whatever the byte that is ignored.
#[test]
fn every_is_is_length_with_good_and_bad_padding() {
    for area_length in 1..=13 {
        let area = &[0x49, 0, 2, 0, 3, 0, 4, 0, 5, 0, 6, 0, 7][..area_length];
        let domains = [domain(64496, 0, &[]), domain(64497, 2, area)];
        let profile = file(0, &domains, &[]);
        let list = [short_as(64497), is_is(area)].concat();
        let end = 8 + area_length.div_ceil(4) * 4;
        assert_eq!(list.len(), end);
        for at in 8 + area_length..end {
            for value in 0..=255 {
                let mut padded = list.clone();
                padded[at] = value;
                padded[7] = value;
                let which = format!("area of {area_length}, byte {at} is {value}");
                let expected = if value == 0 {
                    bare([0, 1])
                } else {
                    Err((26, 4))
                };
                assert_eq!(read(&profile, 0, &padded, &which), expected, "{which}");
            }
        }
        for ignored in 0..=255 {
            let mut list = list.clone();
            list[7] = ignored;
            let which = format!("area of {area_length}, ignored {ignored}");
            assert_eq!(read(&profile, 0, &list, &which), bare([0, 1]), "{which}");
        }
    }
}

#[test]
fn order_of_checks_within_a_subobject() {
    for (wrong, number) in [
        (&[1, 8, 0][..], 23), // under 4 left, whatever they are
        (&[0x7F, 0, 0], 23),
        (&[0xFF, 0, 0, 0], 24), // type before L
        (&[0x88, 8, 0, 0], 24),
        (&[0x87, 8, 14, 0], 27), // L before area length
        (&[0x85, 0, 0, 0], 27),  // and before length
        (&[0xA0, 8, 0, 0], 27),
        (&[7, 99, 0, 0], 26), // area length before length
        (&[7, 20, 14, 0], 26),
        (&[7, 12, 3, 0], 25), // length before past the end
        (&[7, 8, 5, 0, 1, 1, 1, 1], 25),
        (&[1, 4, 0, 0], 25),
        (&[32, 8, 0, 0], 25),
        (&[5, 8, 0, 0], 23),           // past the end
        (&[1, 8, 0, 0, 0, 0, 33], 23), // past the end before prefix length
        (&[7, 8, 1, 0, 1, 1, 1], 23),  // past the end before padding
        (&[1, 8, 0, 0, 0, 0, 31, 0], 26),
        (&[7, 8, 3, 0, 0x49, 0, 1, 1], 26),
    ] {
        let profile = five_domains();
        let alone = read(&profile, 0, wrong, "alone");
        assert_eq!(alone, Err((number, 0)), "{wrong:?}");
        let later = read(&profile, 0, &[&long_as(64496), wrong].concat(), "later");
        assert_eq!(later, Err((number, 8)), "{wrong:?}");
    }
}

#[test]
fn ignored_bytes_are_not_looked_at() {
    let list = [
        &[1, 8, 1, 2, 3, 4, 32, 0xFF][..],
        &[5, 8, 0xFF, 0xFF, 0, 0, 0xFB, 0xF1],
        &[6, 8, 0xFF, 0xFF, 0, 0, 0, 4],
        &[32, 4, 0xFB, 0xF2],
        &[7, 8, 3, 0xFF, 0x49, 0, 1, 0],
    ];
    let reading = read(&five_domains(), 0, &list.concat(), "ignored bytes set");
    let expected = without_exrs([(0, None), (2, Some(0x0102_0304)), (3, None)]);
    assert_eq!(reading, expected);
}

/// A list of subobjects that add nothing, cut to every length.
#[test]
fn every_length_of_a_list() {
    let area = [0x49, 1, 2, 3, 4, 5, 6, 7, 8, 9, 10, 11, 12];
    let profile = file(0, &[domain(64500, 2, &area)], &[]);
    let round = [
        short_as(64500),
        is_is(&area),
        long_as(64500),
        short_as(64500),
    ];
    // The rounds are 36 bytes long; the subobjects of each start at these.
    let starts = [0, 4, 24, 32];
    let list = round.concat().repeat(34);
    for length in 0..=1_200 {
        let last = starts.iter().rfind(|&&start| start <= length % 36);
        let cut = length % 36 - last.expect("0 is a start");
        let expected = match length {
            1025.. => Err((22, 0)),
            _ if cut == 0 => bare([0]),
            _ => Err((23, (length - cut) as u32)),
        };
        let reading = read(&profile, 0, &list[..length], length);
        assert_eq!(reading, expected, "{length} bytes");
    }
}

/// What is wrong at one place of a list.
struct Fault {
    number: u32,
    /// What goes before, from the domain of AS 100.
    head: Vec<u8>,
    /// The AS that one is in after that.
    here: u16,
    wrong: Vec<u8>,
    /// Where the refused subobject begins in `wrong`.
    at: usize,
    /// What follows; never looked at.
    tail: Vec<u8>,
}

fn faults() -> Vec<Fault> {
    let form = |number, wrong: &[u8], tail: &[u8]| Fault {
        number,
        head: entry(1),
        here: 100,
        wrong: wrong.to_vec(),
        at: 0,
        tail: tail.to_vec(),
    };
    let meaning = |number, head: Vec<u8>, here, wrong: &[Vec<u8>]| Fault {
        number,
        head,
        here,
        wrong: wrong.concat(),
        at: wrong[..wrong.len() - 1].iter().map(Vec::len).sum(),
        tail: [entry(1), entry(2), short_as(9)].concat(),
    };
    let fifteen = || (101..=115).flat_map(short_as).collect();
    let left_over = Fault {
        tail: [short_as(100), short_as(100)].concat(),
        ..meaning(32, Vec::new(), 100, &[entry(7)])
    };
    vec![
        form(23, &[5, 8, 0], &[]),
        form(23, &long_as(100)[..7], &[]),
        form(24, &[34, 4, 0, 100], &[0xFF; 5]),
        form(25, &[5, 4, 0, 0], &[0xFF; 5]),
        form(26, &[7, 8, 14, 0], &[0xFF; 5]),
        form(26, &[1, 8, 0, 0, 0, 0, 31, 0], &[0xFF; 5]),
        form(26, &[7, 8, 3, 0, 0x49, 0, 1, 1], &[0xFF; 5]),
        form(26, &short_as(0), &[0xFF; 5]),
        form(26, &long_as(23_456), &[0xFF; 5]),
        form(27, &[0xA0, 4, 0, 100], &[0xFF; 5]),
        meaning(28, entry(1), 100, &[short_as(9)]),
        meaning(28, entry(1), 100, &[long_as(9), ospf(0)]),
        meaning(28, entry(1), 100, &[ospf(0)]),
        meaning(29, entry(1), 100, &[long_as(200)]),
        meaning(30, short_as(101), 101, &[short_as(100)]),
        meaning(31, fifteen(), 115, &[short_as(116)]),
        meaning(31, fifteen(), 115, &[short_as(200), ospf(4)]),
        meaning(32, entry(7), 100, &[entry(7)]),
        left_over,
    ]
}

/// Each fault after none, one, two and more subobjects that add nothing, until
/// the list is full.
#[test]
fn each_refusal_at_each_offset() {
    let alone = (100..=119).map(|as_number| domain(as_number, 0, &[]));
    let areas = [0, 4].map(|area| domain(200, 1, &[0, 0, 0, area]));
    let domains: Vec<_> = alone.chain(areas).collect();
    let profile = file(1, &domains, &[]);
    let mut counts = Counts::default();
    for fault in faults() {
        let around = fault.head.len() + fault.wrong.len() + fault.tail.len();
        for before in 0..=(1024 - around) / 4 {
            let nothing = short_as(fault.here).repeat(before);
            let list = [&fault.head, &nothing, &fault.wrong, &fault.tail];
            let offset = fault.head.len() + nothing.len() + fault.at;
            let expected = (fault.number, offset as u32);
            let which = format!("{expected:?}");
            let reading = read(&profile, 0, &list.map(Vec::as_slice).concat(), &which);
            assert_eq!(reading, Err(expected));
            counts.add(expected);
        }
    }
    let possible: Vec<u32> = (23..=32).collect();
    counts.cover("read_include, each refusal at each offset", &possible);
    for number in possible {
        assert!(counts.places(number) >= 230, "{number}");
    }
}
