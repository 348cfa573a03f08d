//! The frame of a PCRep through read_pcrep: numbers 36 to 39 and 41, on messages
//! changed in every small way.

use reference::generate::Told;
use tests::by_hand::messages::*;
use tests::by_hand::{P as NODE_P, S, U, Z};
use tests::compare::Counts;
use tests::frames::Reader;
use tests::lists::verdict;
use tests::pcrep::read;

fn reader() -> Reader {
    Reader {
        message_type: PCREP,
        known: &[(2, 1), (3, 1), (6, 1), (7, 1)],
        objects: vec![
            rp(7, 0x21),
            ero(&[S, NODE_P, U, Z]),
            no_path(1, true),
            metric(2, C, 0x4160_0000),
        ],
        read: told,
    }
}

#[track_caller]
fn told(message: &[u8], which: String) -> Told {
    verdict(&read(message, which))
}

/// A path, none, and both twice with what would be refused if it counted.
fn few_messages() -> [Vec<u8>; 4] {
    [
        message(PCREP, &reader().objects),
        message(
            PCREP,
            &[
                metric(255, 0xFF, 0x7F7F_FFFF),
                longer(&no_path(0xFF, true), &[0, 1, 0, 4, 0, 0, 0, 1]),
                object(99, 1, I, &[0; 8]),
                longer(&rp(u32::MAX, u32::MAX), &[0, 9, 0, 4, 1, 2, 3, 4]),
                metric(0, 0, 0),
            ],
        ),
        message(
            PCREP,
            &[
                ero(&[1, 2, 3, 4, 5, 6, 7]),
                object(7, 1, 0, &[0; 12]),
                no_path(0, false),
                rp(1, 2),
                rp(3, 4),
            ],
        ),
        message(
            PCREP,
            &[no_path(2, false), object(7, 1, 0, &[0xFF; 8]), rp(1, 2)],
        ),
    ]
}

#[test]
fn any_byte_of_a_few_messages_changed_to_any_other() {
    let mut counts = Counts::default();
    reader().any_byte_changed(&few_messages(), &mut counts);
    let numbers = [0, 21, 24, 25, 26, 27, 36, 37, 38, 39, 41];
    counts.cover("read_pcrep, one byte changed", &numbers);
    assert!(counts.places(37) >= 8 && counts.places(38) >= 8);
}

#[test]
fn a_few_messages_cut_and_filled_up_anywhere() {
    let cases = reader().cut_and_filled(&few_messages());
    println!("\nread_pcrep, cut and filled up: {cases} cases");
}

#[test]
fn objects_of_every_class_and_type() {
    let mut counts = Counts::default();
    reader().every_class_and_type(&mut counts);
    counts.cover("read_pcrep, class and type", &[0, 38]);
}

#[test]
fn every_length_of_an_object() {
    let mut counts = Counts::default();
    reader().every_length(&mut counts);
    counts.cover("read_pcrep, lengths", &[0, 37, 38]);
}

#[test]
fn each_refusal_at_each_offset() {
    let mut counts = Counts::default();
    reader().each_refusal_at_each_offset(&mut counts);
    counts.cover("read_pcrep, 37 and 38 at each offset", &[37, 38]);
    assert!(counts.places(37) >= 15 && counts.places(38) >= 15);
}

#[test]
fn every_header() {
    let mut counts = Counts::default();
    reader().every_header(&mut counts);
    counts.cover("read_pcrep, headers", &[0, 36]);
}

#[test]
fn objects_that_are_missing() {
    let mut counts = Counts::default();
    let mut twice = reader();
    twice.objects.extend(reader().objects);
    twice.objects.push(object(99, 1, 0, &[]));
    let needed: [(&[(u8, u8)], u32); 2] = [(&[(2, 1)], 39), (&[(3, 1), (7, 1)], 41)];
    for turn in 0..4 {
        twice.objects.rotate_left(turn);
        twice.missing(&needed, &mut counts);
    }
    counts.cover("read_pcrep, objects missing", &[39, 41]);
}

/// A wrong header goes before wrong objects, those before what is missing, that
/// before a METRIC out of range, and this before the form of an ERO.
#[test]
fn pairs_of_things_wrong() {
    let mut counts = Counts::default();
    let wrong_ero = object(7, 1, 0, &[0; 4]);
    let metric = metric(1, 0, 0x7F80_0000);
    let unknown = object(99, 1, P, &[]);
    let short = cut(&rp(1, 0), 8);
    let both = [wrong_ero.clone(), metric.clone()].concat();
    let place = 4 + both.len() as u32;
    for (objects, expected) in [
        (
            vec![both.clone(), short.clone(), unknown.clone()],
            (37, place),
        ),
        (vec![both.clone(), unknown, short], (38, place)),
        (vec![both.clone()], (39, 0)),
        (vec![rp(1, 0), metric.clone()], (41, 0)),
        (vec![rp(1, 0), both.clone()], (21, 1)),
        (vec![rp(1, 0), wrong_ero.clone()], (24, 0)),
        (vec![rp(1, 0), no_path(0, false), wrong_ero], (0, 0)),
        (vec![rp(1, 0), no_path(0, false), metric], (21, 1)),
    ] {
        let which = format!("{objects:02X?}");
        let mut whole = message(PCREP, &objects);
        for flags in 0x20..0x40 {
            whole[0] = flags;
            assert_eq!(told(&whole, which.clone()), expected, "{which}");
            counts.add(expected);
        }
        whole[1] = PCREQ;
        assert_eq!(told(&whole, which), (36, 0));
    }
    counts.cover("read_pcrep, pairs", &[0, 21, 24, 37, 38, 39, 41]);
}
