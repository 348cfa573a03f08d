//! The rules for include lists through read_include: every small change to a
//! few lists, every short list of a few subobjects, and lists made by hand at
//! the edges of each rule on their meaning. The library is held to the reference, and to what
//! the rule says where a list was made for it.

use reference::generate::Reading;
use tests::by_hand::{domain, file, without_exrs};
use tests::compare::Counts;
use tests::lists::{
    bare, buffers, entry, five_domains, is_is, long_as, ospf, read, short_as, verdict, ReadInclude,
};
use tests::nobodys::NOBODYS;

// Every small change to a few lists, and every short list.

/// Lists for `five_domains` with each type of subobject, the domain they start
/// in, and what they mean.
fn few_lists() -> Vec<(u16, Vec<u8>, Reading)> {
    let three = is_is(&[0x49, 0, 1]);
    let across = [
        entry(0x0102_0304),
        short_as(64496),
        long_as(64497),
        ospf(4),
        ospf(0),
        entry(0),
        short_as(64498),
        three.clone(),
        long_as(65536),
    ];
    let constrained = vec![
        (0, None),
        (2, Some(0x0102_0304)),
        (1, None),
        (3, Some(0)),
        (4, None),
    ];
    let from_inside = [ospf(4), entry(u32::MAX), short_as(64498), three.clone()];
    let at_the_end = vec![(1, None), (2, None), (3, Some(u32::MAX))];
    let comes_back = [three, long_as(64498), short_as(64496), long_as(64498)];
    vec![
        (0, across.concat(), without_exrs(constrained)),
        (1, from_inside.concat(), without_exrs(at_the_end)),
        (3, comes_back.concat(), Err((30, 20))),
        (2, Vec::new(), bare([2])),
    ]
}

#[test]
fn any_byte_of_a_few_lists_changed_to_any_other() {
    let profile = five_domains();
    for (ingress, list, expected) in few_lists() {
        assert_eq!(read(&profile, ingress, &list, ingress), expected);
        for at in 0..list.len() {
            let mut changed = list.clone();
            for value in 0..=255 {
                changed[at] = value;
                let which = format_args!("from {ingress}, byte {at} set to {value}");
                _ = read(&profile, ingress, &changed, which);
            }
        }
    }
}

#[test]
fn a_few_lists_cut_and_filled_up_anywhere() {
    let profile = five_domains();
    for (ingress, list, _) in few_lists() {
        for length in 0..=list.len() {
            for after in [&[][..], &[0], &[1, 8], &[32, 4, 0xFB], &[0x55; 9]] {
                let changed = [&list[..length], after].concat();
                let which = format_args!("from {ingress}, {length} bytes and {after:?}");
                _ = read(&profile, ingress, &changed, which);
            }
        }
    }
}

/// Every list of up to five subobjects out of ten.
#[test]
fn every_short_list_of_ten_subobjects() {
    let pieces = [
        short_as(64496),
        long_as(64497),
        short_as(64498),
        long_as(65536),
        long_as(9),
        ospf(0),
        ospf(4),
        is_is(&[0x49, 0, 1]),
        entry(7),
        entry(0),
    ];
    let profile = five_domains();
    let mut counts = Counts::default();
    for ingress in [0, 1, 3] {
        for length in 0..=5 {
            for code in 0..pieces.len().pow(length) {
                let digit = |i| code / pieces.len().pow(i) % pieces.len();
                let list: Vec<u8> = (0..length).flat_map(|i| pieces[digit(i)].clone()).collect();
                let which = format_args!("from {ingress}, {length} subobjects, {code}");
                counts.add(verdict(&read(&profile, ingress, &list, which)));
            }
        }
    }
    counts.cover("read_include, short lists", &[0, 28, 29, 30, 32]);
}

// The edges of each rule on meaning.

#[test]
fn every_ingress() {
    let profile = five_domains();
    for ingress in 0..=u16::MAX {
        let expected = if ingress < 5 {
            bare([ingress])
        } else {
            Err((20, 0))
        };
        assert_eq!(read(&profile, ingress, &[], ingress), expected, "{ingress}");
    }
}

#[test]
fn every_as_of_two_bytes() {
    // The last has two low bytes that no other has.
    let numbers = [1, 255, 256, 257, 23_455, 23_457, 65_535, 0x0001_0200];
    let profile = file(1, &numbers.map(|as_number| domain(as_number, 0, &[])), &[]);
    for as_number in 0..=u16::MAX {
        let known = numbers.iter().position(|&known| known == as_number.into());
        let expected = match known {
            Some(0) => bare([0]),
            Some(index) => bare([0, index as u16]),
            None if NOBODYS.contains(&as_number.into()) => Err((26, 0)),
            None => Err((28, 0)),
        };
        for list in [short_as(as_number), long_as(as_number.into())] {
            assert_eq!(read(&profile, 0, &list, as_number), expected, "{list:?}");
        }
    }
}

/// Areas that differ in one byte, in length alone or in kind alone, in three AS
/// whose numbers differ in one byte: every domain named from every other.
#[test]
fn every_domain_is_found_among_the_64() {
    let mut areas: Vec<(u8, Vec<u8>)> = (1..=13).map(|n| (2, vec![0; n])).collect();
    areas.extend([1, 2, 4].map(|area| (1, vec![0, 0, 0, area])));
    areas.extend([1, 2, 4].map(|area| (2, vec![0, 0, 0, area])));
    areas.push((1, vec![0, 0, 0, 0]));
    areas.push((2, vec![0, 0, 0, 0, 0, 0, 0, 0, 0, 0, 0, 0, 1]));
    let of = |as_number: u32| {
        let with = move |(kind, area): &(u8, Vec<u8>)| (as_number, *kind, area.clone());
        areas.iter().map(with)
    };
    let mut domains: Vec<_> = [0x0001_0203, 0x0001_0204, 0x0101_0203]
        .into_iter()
        .flat_map(of)
        .chain([(1, 0, Vec::new())])
        .collect();
    domains.sort_by_key(|(as_number, kind, area)| domain(*as_number, *kind, area));
    let record = |(as_number, kind, area): &(u32, u8, Vec<u8>)| domain(*as_number, *kind, area);
    let records: Vec<_> = domains.iter().map(record).collect();
    assert_eq!(records.len(), 64);
    let profile = file(1, &records, &[]);
    for ingress in 0..64u16 {
        for (named, (as_number, kind, area)) in (0..).zip(&domains) {
            let area = match kind {
                0 => Vec::new(),
                1 => [&[6, 8, 0, 0], &area[..]].concat(),
                _ => is_is(area),
            };
            let list = [long_as(*as_number), area].concat();
            let expected = if named == ingress {
                bare([named])
            } else {
                bare([ingress, named])
            };
            let which = format!("{ingress} to {named}");
            assert_eq!(read(&profile, ingress, &list, &which), expected, "{which}");
        }
    }
}

/// Sequences of 1 to 17 domains of one AS and of many.
#[test]
fn sequences_of_1_to_17_domains() {
    let areas: Vec<_> = (0..20).map(|i| domain(100, 1, &[0, 0, 0, i])).collect();
    let many: Vec<_> = (0..20).map(|i| domain(100 + i, 0, &[])).collect();
    let name_area = |i: u16| ospf(i.into());
    let name_as = |i: u16| short_as(100 + i);
    sequences(&file(1, &areas, &[]), name_area);
    sequences(&file(1, &many, &[]), name_as);
}

fn sequences(profile: &[u8], name: impl Fn(u16) -> Vec<u8>) {
    for count in 1..=17 {
        for first in [0, 2, 19] {
            let route: Vec<u16> = (0..count).map(|i| (first + 3 * i) % 20).collect();
            let named: Vec<_> = route[1..].iter().map(|&index| name(index)).collect();
            let list = named.concat();
            let which = format!("{route:?}");
            let (_, before_last) = named.split_last().unwrap_or((&list, &[]));
            let expected = match count {
                17 => Err((31, before_last.concat().len() as u32)),
                _ => bare(route.clone()),
            };
            assert_eq!(read(profile, route[0], &list, &which), expected, "{which}");
            if count < 17 {
                then_once_more(profile, &route, &list, &name);
            }
        }
    }
}

/// After a sequence: its last domain adds nothing, an earlier one comes back
/// even where there is place for no other, and one that isn't there is told
/// before that.
fn then_once_more(profile: &[u8], route: &[u16], list: &[u8], name: impl Fn(u16) -> Vec<u8>) {
    let offset = list.len() as u32;
    let then = |index| read(profile, route[0], &[list, &name(index)].concat(), index);
    let (last, earlier) = route.split_last().expect("a sequence isn't empty");
    assert_eq!(then(*last), bare(route.to_vec()));
    for &index in earlier {
        assert_eq!(then(index), Err((30, offset)), "{route:?}, then {index}");
    }
    assert_eq!(then(77), Err((28, offset)), "{route:?}, then no domain");
}

/// An entry constraint before each domain of a sequence, and up to five names
/// between them that add nothing.
#[test]
fn an_entry_constraint_waits_over_what_adds_nothing() {
    let areas: Vec<_> = (0..16).map(|i| domain(64496, 1, &[0, 0, 0, i])).collect();
    let profile = file(0, &areas, &[]);
    let again = |here: u16, names: usize| -> Vec<u8> {
        let both = [long_as(64496), ospf(here.into())].concat();
        let either = [ospf(here.into()), both];
        (0..names).flat_map(|i| either[i % 2].clone()).collect()
    };
    for constrained in 1..16 {
        for names in 0..=5 {
            for node in [0, 1, 0x0102_0304, u32::MAX] {
                let mut list = Vec::new();
                let mut expected = vec![(0, None)];
                for to in 1..16 {
                    let mut pin = None;
                    if to == constrained {
                        list.extend([entry(node), again(to - 1, names)].concat());
                        pin = Some(node);
                    }
                    list.extend(ospf(to.into()));
                    expected.push((to, pin));
                }
                let which = format!("{node:08X} waits over {names} for {constrained}");
                let expected = without_exrs(expected);
                assert_eq!(read(&profile, 0, &list, &which), expected, "{which}");
                // A second one, while the first waits, also across them.
                let before: usize = 8 * usize::from(constrained - 1);
                let waits = 8 + again(constrained - 1, names).len();
                let second = before + waits;
                list.splice(second..second, entry(node));
                let expected = Err((32, second as u32));
                assert_eq!(read(&profile, 0, &list, &which), expected, "{which}");
            }
        }
    }
}

/// Each thing wrong is told before what the checks after it would find.
#[test]
fn checks_come_in_order() {
    let (profile, mut damaged) = (five_domains(), five_domains());
    damaged[12 + 20 + 4] = 3;
    let unknown_and_left_over = [entry(7), long_as(9)].concat();
    let malformed = [&unknown_and_left_over, &[0; 8][..]].concat();
    let too_long = [&malformed, &[0; 1009][..]].concat();
    let left_over = [entry(7), long_as(64496)].concat();
    let fine = [entry(7), long_as(65536)].concat();
    for (profile, ingress, list, capacity, expected) in [
        (&damaged, 5, &too_long, 0, Err((14, 1))),
        (&profile, 5, &too_long, 0, Err((20, 0))),
        (&profile, 0, &too_long, 0, Err((22, 0))),
        (&profile, 0, &malformed, 0, Err((24, 16))),
        (&profile, 0, &unknown_and_left_over, 0, Err((28, 8))),
        (&profile, 0, &left_over, 0, Err((32, 0))),
        (&profile, 0, &fine, 0, Err((34, 0))),
        (
            &profile,
            0,
            &fine,
            2,
            without_exrs([(0, None), (4, Some(7))]),
        ),
    ] {
        let reading = ReadInclude {
            profile,
            ingress,
            include: list,
            buffers: buffers([capacity; 4], 0),
        }
        .read(format_args!("{expected:?}"));
        assert_eq!(reading, expected);
    }
}
