//! The lists in a PCReq: every number that document 01 has for their form, at
//! the offset in the list, wherever the object stands; and the meaning of the
//! include list through the calls.

use reference::generate::{self, Told};
use reference::PcReq;
use tests::by_hand::messages::*;
use tests::by_hand::{profile_w, Q, S, SHORT, U, Z};
use tests::compare::{compare, seeds, Counts};
use tests::lists::{entry, excluded, exrs, is_is, long_as, marked, ospf, short_as, verdict};
use tests::paths::{buffer, LONGEST};
use tests::pcreq::{read, AskPath};

/// Number and place of a reading.
#[track_caller]
fn told(objects: &[Vec<u8>]) -> Told {
    let whole = [&[rp(1, 0), end_points(S, Z)], objects].concat();
    verdict(&read(
        &message(PCREQ, &whole),
        format_args!("{objects:02X?}"),
    ))
}

/// What is wrong in form in either list, of whole words; a piece that is cut
/// stands last.
fn faults() -> Vec<(u32, Vec<u8>)> {
    vec![
        (23, vec![5, 8, 0, 0]),
        (23, vec![1, 8, 0, 0]),
        (23, is_is(&[1; 5])[..8].to_vec()),
        (24, vec![34, 4, 0, 0]),
        (24, vec![0x80, 8, 0, 0]),
        (25, vec![5, 4, 0, 0]),
        (25, vec![32, 8, 0, 0]),
        (25, vec![7, 12, 3, 0]),
        (26, vec![7, 8, 0, 0]),
        (26, vec![7, 20, 14, 0]),
        (26, vec![7, 8, 3, 0, 0x49, 0, 1, 1]),
        (26, excluded(S, 33)),
        (26, short_as(23_456)),
        (26, long_as(0)),
    ]
}

/// What is wrong in an include list alone, and in an exclude list alone.
fn own_faults() -> [Vec<(u32, Vec<u8>)>; 2] {
    [
        vec![
            (26, excluded(S, 31)),
            (26, vec![33, 4, 0, 0]),
            (25, vec![33, 3, 0, 0]),
            (27, vec![0xA1, 3, 0, 0]),
            (27, marked(short_as(9))),
            (27, marked(long_as(9))),
            (27, vec![0x87, 8, 0, 0]),
            (27, marked(entry(S))),
        ],
        vec![
            (26, vec![1, 8, 0, 0, 0, 0, 32, 0]),
            (26, marked(vec![1, 8, 0, 0, 0, 0, 32, 2])),
            (25, vec![0xA0, 8, 0, 0]),
            (24, exrs(&[short_as(9)])),
            (26, marked(excluded(S, 255))),
        ],
    ]
}

/// Each fault after none, one and more subobjects, until the list is full.
#[test]
fn each_refusal_at_each_offset() {
    let mut counts = Counts::default();
    let [include, exclude] = own_faults();
    let fine = short_as(9);
    for (object, own) in [(iro as fn(&[u8]) -> Vec<u8>, include), (xro, exclude)] {
        for (number, wrong) in faults().into_iter().chain(own) {
            for before in 0..=256 {
                let list = [&fine.repeat(before)[..], &wrong].concat();
                if list.len() > 1_024 {
                    continue;
                }
                let said = told(&[object(&list)]);
                assert_eq!(said, (number, 4 * before as u32), "{wrong:02X?}");
                counts.add(said);
            }
        }
    }
    counts.cover("read_pcreq, form of the lists", &[23, 24, 25, 26, 27]);
    for number in 23..=27 {
        assert!(counts.places(number) >= 250, "{number}");
    }
}

/// 22 at 0, 22 at 1, the form of the include list, then of the exclude list.
#[test]
fn which_list_is_told_first() {
    let mut counts = Counts::default();
    let long = short_as(9).repeat(257);
    let full = short_as(9).repeat(256);
    let wrong = |place: usize| [&short_as(9).repeat(place / 4)[..], &[0, 4, 0, 0]].concat();
    let lists = [
        (Vec::new(), None),
        (short_as(9), None),
        (full, None),
        (long, Some(22)),
        (wrong(0), Some(24)),
        (wrong(8), Some(24)),
        (wrong(1_020), Some(24)),
    ];
    for (include, of_include) in &lists {
        for (exclude, of_exclude) in &lists {
            let place = |list: &[u8]| list.len() as u32 - 4;
            let expected = match (of_include, of_exclude) {
                (Some(22), _) => (22, 0),
                (_, Some(22)) => (22, 1),
                (Some(24), _) => (24, place(include)),
                (_, Some(24)) => (24, place(exclude)),
                _ => (0, 0),
            };
            // Whichever object comes first.
            let [one, other] = [iro(include), xro(exclude)];
            for objects in [[one.clone(), other.clone()], [other, one]] {
                assert_eq!(told(&objects), expected);
                counts.add(expected);
                let float = metric(1, 0, u32::MAX);
                assert_eq!(told(&[&objects[..], &[float]].concat()), (21, 1));
            }
        }
    }
    counts.cover("read_pcreq, two lists", &[0, 22, 24]);
}

/// Every length of a list in whole words around the longest.
#[test]
fn every_length_of_a_list() {
    for words in (0..20).chain(250..270).chain([1_000, 10_000, 16_000]) {
        let list = short_as(9).repeat(words);
        let over = list.len() > 1_024;
        let expected = |place| if over { (22, place) } else { (0, 0) };
        assert_eq!(told(&[iro(&list)]), expected(0), "{words} words");
        assert_eq!(told(&[xro(&list)]), expected(1), "{words} words");
        // A second list isn't looked at.
        assert_eq!(told(&[xro(&[]), iro(&[]), iro(&list)]), (0, 0));
        assert_eq!(told(&[xro(&[]), iro(&[]), xro(&list)]), (0, 0));
    }
}

/// Include lists with a known meaning or one known fault, carried by a PCReq.
#[test]
fn planned_include_lists() {
    let mut counts = Counts::default();
    let mut cut = 0;
    for seed in seeds(20_000) {
        let planned = generate::planned_include(seed);
        if !planned.include.len().is_multiple_of(4) {
            // Only a message of whole words can carry it.
            cut += 1;
            continue;
        }
        let objects = [iro(&planned.include), rp(1, 0), end_points(S, Z)];
        let message = message(PCREQ, &objects);
        let path = AskPath {
            asked: PcReq {
                profile: &planned.profile,
                ingress: planned.ingress,
                message: &message,
            },
            given: None,
            path: buffer(LONGEST),
        };
        let answer = compare(&path, format_args!("planned_include({seed})"));
        match &planned.expected {
            Err(told) => assert_eq!(answer.verdict(), *told, "planned_include({seed})"),
            Ok(_) => assert!(answer.number <= 1, "planned_include({seed})"),
        }
        let form = match planned.expected {
            Err((number @ 22..=27, place)) => (number, place),
            _ => (0, 0),
        };
        let read = verdict(&read(&message, format_args!("planned_include({seed})")));
        assert_eq!(read, form, "planned_include({seed})");
        counts.add(answer.verdict());
    }
    println!("\npcreq_first, planned lists: {cut} not of whole words left out");
    let numbers: Vec<u32> = [1].into_iter().chain(23..=32).collect();
    counts.cover("pcreq_first, planned lists", &numbers);
    for number in (24..=30).chain([32]) {
        assert!(counts.places(number) >= 15, "{number}");
    }
}

/// Meaning comes after the form of both lists, and its offsets count from the
/// start of the list wherever the IRO stands.
#[test]
fn meaning_of_the_include_list() {
    let w = profile_w();
    let mut counts = Counts::default();
    let wrong_exclude = xro(&[0, 4, 0, 0]);
    for (list, expected) in [
        (short_as(9), (28, 0)),
        ([long_as(64497), ospf(0)].concat(), (28, 8)),
        ([long_as(64497), long_as(64496)].concat(), (30, 8)),
        ([&SHORT[..], &entry(U)].concat(), (32, 8)),
        ([entry(U), entry(Q)].concat(), (32, 8)),
        (SHORT.to_vec(), (0, 0)),
    ] {
        for before in 0..10 {
            let skipped = object(99, 1, 0, &vec![0; 4 * before]);
            let objects = [skipped, rp(1, 0), iro(&list), end_points(S, Z)];
            let ask = |objects: &[Vec<u8>]| {
                let message = message(PCREQ, objects);
                let path = AskPath {
                    asked: PcReq {
                        profile: &w,
                        ingress: 0,
                        message: &message,
                    },
                    given: None,
                    path: buffer(4),
                };
                compare(&path, format_args!("{list:02X?}")).verdict()
            };
            assert_eq!(ask(&objects), expected, "{list:02X?}");
            counts.add(expected);
            let both = [&objects[..], std::slice::from_ref(&wrong_exclude)].concat();
            assert_eq!(ask(&both), (24, 0), "{list:02X?}");
            assert_eq!(told(&[iro(&list)]), (0, 0), "{list:02X?} read alone");
        }
    }
    counts.cover("pcreq_first, meaning", &[0, 28, 30, 32]);
}
