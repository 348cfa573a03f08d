//! The frame of a PCReq through read_pcreq: numbers 36 to 40, on messages
//! changed in every small way.

use reference::generate::Told;
use tests::by_hand::messages::*;
use tests::by_hand::{B100, S, SHORT, Z};
use tests::compare::Counts;
use tests::frames::Reader;
use tests::lists::{entry, excluded, is_is, long_as, marked, verdict};
use tests::pcreq::read;

fn reader() -> Reader {
    Reader {
        message_type: PCREQ,
        known: &[(2, 1), (4, 1), (5, 1), (6, 1), (10, 1), (17, 1)],
        objects: vec![
            rp(7, 0x21),
            end_points(S, Z),
            bandwidth(B100),
            metric(2, B, 0x4160_0000),
            iro(&SHORT),
            xro(&excluded(S, 32)),
        ],
        read: told,
    }
}

#[track_caller]
fn told(message: &[u8], which: String) -> Told {
    verdict(&read(message, which))
}

/// Messages with every kind of object, in order and out of it.
fn few_messages() -> [Vec<u8>; 3] {
    let lists = [
        [entry(S), long_as(64497), is_is(&[0x49, 0, 1])].concat(),
        [excluded(Z, 24), marked(long_as(9))].concat(),
    ];
    [
        message(PCREQ, &reader().objects),
        message(
            PCREQ,
            &[
                xro(&lists[1]),
                metric(1, 0, 0x3F80_0000),
                end_points(1, 2),
                object(99, 1, I, &[0; 8]),
                iro(&lists[0]),
                longer(&rp(0x8000_0001, u32::MAX), &[0, 9, 0, 4, 1, 2, 3, 4]),
                metric(255, 0xFF, 0x7F7F_FFFF),
            ],
        ),
        // Each twice, the second with what would be refused if it counted.
        message(
            PCREQ,
            &[
                rp(1, 2),
                rp(3, 4),
                bandwidth(0),
                bandwidth(u32::MAX),
                iro(&[]),
                iro(&[0; 8]),
                xro(&[]),
                xro(&[0xFF; 4]),
                end_points(3, 4),
                end_points(5, 6),
            ],
        ),
    ]
}

#[test]
fn any_byte_of_a_few_messages_changed_to_any_other() {
    let mut counts = Counts::default();
    reader().any_byte_changed(&few_messages(), &mut counts);
    let numbers = [0, 21, 24, 25, 26, 27, 36, 37, 38, 39, 40];
    counts.cover("read_pcreq, one byte changed", &numbers);
    assert!(counts.places(37) >= 10 && counts.places(38) >= 10);
}

#[test]
fn a_few_messages_cut_and_filled_up_anywhere() {
    let cases = reader().cut_and_filled(&few_messages());
    println!("\nread_pcreq, cut and filled up: {cases} cases");
}

#[test]
fn objects_of_every_class_and_type() {
    let mut counts = Counts::default();
    reader().every_class_and_type(&mut counts);
    counts.cover("read_pcreq, class and type", &[0, 37, 38]);
}

#[test]
fn every_length_of_an_object() {
    let mut counts = Counts::default();
    reader().every_length(&mut counts);
    counts.cover("read_pcreq, lengths", &[0, 37, 38]);
}

#[test]
fn each_refusal_at_each_offset() {
    let mut counts = Counts::default();
    reader().each_refusal_at_each_offset(&mut counts);
    counts.cover("read_pcreq, 37 and 38 at each offset", &[37, 38]);
    assert!(counts.places(37) >= 20 && counts.places(38) >= 20);
}

#[test]
fn every_header() {
    let mut counts = Counts::default();
    reader().every_header(&mut counts);
    counts.cover("read_pcreq, headers", &[0, 36]);
}

#[test]
fn objects_that_are_missing() {
    let mut counts = Counts::default();
    let mut twice = reader();
    twice.objects.extend(reader().objects);
    let needed: [(&[(u8, u8)], u32); 2] = [(&[(2, 1)], 39), (&[(4, 1)], 40)];
    twice.missing(&needed, &mut counts);
    counts.cover("read_pcreq, objects missing", &[39, 40]);
}

/// A wrong header goes before wrong objects, and those before what is missing.
#[test]
fn pairs_of_things_wrong() {
    let mut counts = Counts::default();
    let unknown = object(99, 1, P, &[]);
    let bits = 0x7F80_0000;
    let floats = [bandwidth(bits), metric(1, B, bits)];
    let lists = [
        iro(&[0; 1_028]),
        xro(&[0; 1_028]),
        iro(&[0; 4]),
        xro(&[0; 4]),
    ];
    for after in floats.iter().chain(&lists) {
        for (before, expected) in [
            (vec![cut(&rp(1, 0), 8)], (37, 4)),
            (vec![unknown.clone()], (38, 4)),
            (vec![end_points(1, 2)], (39, 0)),
            (vec![rp(1, 0)], (40, 0)),
        ] {
            let objects = [&before[..], std::slice::from_ref(after)].concat();
            let mut whole = message(PCREQ, &objects);
            let which = format!("{before:?}, {after:?}");
            assert_eq!(told(&whole, which.clone()), expected);
            counts.add(expected);
            whole[1] = PCREP;
            assert_eq!(told(&whole, which), (36, 0));
            counts.add((36, 0));
            // Wherever the object with the fault stands, unless it is told first.
            let objects = [std::slice::from_ref(after), &before[..]].concat();
            let place = if expected.1 == 4 {
                4 + after.len() as u32
            } else {
                0
            };
            let said = told(&message(PCREQ, &objects), String::from("the other way"));
            assert_eq!(said, (expected.0, place));
            counts.add(said);
        }
    }
    counts.cover("read_pcreq, pairs", &[36, 37, 38, 39, 40]);
}

/// A message as long as a message can be, and one that says less than it is.
#[test]
fn the_longest_message() {
    let skipped = object(99, 1, 0, &[0; 65_496 - 4]);
    let longest = message(PCREQ, &[rp(1, 0), skipped.clone(), end_points(1, 2)]);
    assert_eq!(longest.len(), 65_524);
    assert_eq!(told(&longest, String::from("longest")), (0, 0));
    let eight_more = object(99, 1, 0, &[0; 4]);
    let longest = [longest, eight_more].concat();
    let mut said = longest.clone();
    said[2..4].copy_from_slice(&65_532u16.to_be_bytes());
    assert_eq!(told(&said, String::from("65,532 bytes")), (0, 0));
    let over = [&said[..], &[99, 0x10, 0, 4]].concat();
    assert_eq!(told(&over, String::from("65,536 bytes")), (36, 0));
    for length in [0u16, 4, 65_535] {
        let mut over = over.clone();
        over[2..4].copy_from_slice(&length.to_be_bytes());
        assert_eq!(told(&over, format!("says {length}")), (36, 0));
    }
    // The last object reaches to the last byte, or past it.
    let place = 4 + 12;
    let to_the_end = object(99, 1, 0, &vec![0; 65_532 - 28 - 4]);
    let whole = message(PCREQ, &[end_points(1, 2), rp(1, 0), to_the_end]);
    assert_eq!(told(&whole, String::from("to the end")), (0, 0));
    let mut past = whole;
    past[place + 12 + 2..place + 12 + 4].copy_from_slice(&65_508u16.to_be_bytes());
    assert_eq!(told(&past, String::from("past it")), (37, 28));
}
