//! The rules for reading a PCRep (document 02's request [3]), on messages typed
//! in by hand.

use crate::common;
use common::messages::*;
use common::replies::*;

fn read(message: &[u8]) -> Read {
    read_into(message, [9_000; 4])
}

fn read_objects(objects: &[Vec<u8>]) -> Read {
    read(&message(PCREP, objects))
}

fn refused(objects: &[Vec<u8>]) -> (u32, u32) {
    read_objects(objects).expect_err("it is refused")
}

/// RP 1 without flags, and what the reply says.
fn plain(said: Result<Vec<u32>, (u8, bool)>) -> Read {
    Ok(Fields {
        request_id: 1,
        rp_flags: 0,
        said,
        metrics: vec![],
    })
}

#[test]
fn whole_pcreps() {
    assert_eq!(read(&hex(PATH)), Ok(spuz()));
    assert_eq!(read(&hex(WRITTEN)), Ok(spuz()));
    assert_eq!(read(&hex(NONE)), Ok(none()));
    assert_eq!(read(&hex(NONE_WRITTEN)), Ok(none()));
}

// 36 to 39 and 41.

#[test]
fn header_and_objects() {
    for wrong in ["20 04 00", "20 03 00 04", "40 04 00 04", "20 04 00 08"] {
        assert_eq!(read(&hex(wrong)), Err((36, 0)), "{wrong}");
    }
    for said in [ero(&[]), no_path(0, false)] {
        let own = said.len() as u32;
        assert_eq!(refused(&vec![said.clone(); 2]), (39, 0));
        assert_eq!(
            refused(&[rp(1, 0), cut(&rp(1, 0), 8), said.clone()]),
            (37, 16)
        );
        // What a PCReq may have isn't known here.
        for other in [end_points(1, 2), bandwidth(0), iro(&[]), xro(&[])] {
            let with = |bits| [rp(1, 0), said.clone(), with_bits(other.clone(), bits)];
            assert!(read_objects(&with(I)).is_ok());
            assert_eq!(refused(&with(P)), (38, 16 + own));
        }
    }
    assert_eq!(refused(&[]), (39, 0));
    assert_eq!(refused(&[rp(1, 0)]), (41, 0));
    assert_eq!(refused(&[rp(1, 0), object(7, 2, 0, &[])]), (41, 0));
    assert_eq!(refused(&[rp(1, 0), cut(&no_path(0, false), 4)]), (37, 16));
    assert_eq!(refused(&[rp(1, 0), metric(1, 0, u32::MAX)]), (41, 0));
}

#[test]
fn of_ero_and_no_path_the_first_counts() {
    let (path, none) = (ero(&[1, 2]), no_path(5, true));
    let wrong = object(7, 1, 0, &[0; 4]);
    for (objects, said) in [
        (vec![path.clone(), none.clone()], Ok(vec![1, 2])),
        (vec![none.clone(), path.clone()], Err((5, true))),
        (vec![none.clone(), wrong.clone()], Err((5, true))),
        (vec![path.clone(), wrong.clone(), ero(&[3])], Ok(vec![1, 2])),
        (vec![no_path(0, false), none.clone()], Err((0, false))),
    ] {
        let before = [&[rp(1, 0)][..], &objects].concat();
        let after = [&objects[..], &[rp(1, 0), rp(2, 7)]].concat();
        assert_eq!(read_objects(&before), plain(said.clone()));
        assert_eq!(read_objects(&after), plain(said));
    }
    assert_eq!(refused(&[rp(1, 0), wrong, none.clone()]), (24, 0));
    assert_eq!(refused(&[rp(1, 0), path, cut(&none, 4)]), (37, 36));
}

// 21, the form of the ERO, 34.

#[test]
fn form_of_the_ero() {
    for (wrong, number) in [
        ("02 08 00 00", 24),
        ("05 08 00 00 00 00 FB F1", 24),
        ("A0 04 FB F1", 24),
        ("81 04 00 00", 27),
        ("81 08 C0 00 02 01 1F 00", 27),
        ("01 04 00 00", 25),
        ("01 0C 00 00", 25),
        ("01 00 00 00 00 00 1F 00", 25),
        ("01 08 00 00", 23),
        ("01 08 C0 00 02 01 1F 00", 26),
        ("01 08 C0 00 02 01 00 00", 26),
        ("01 08 C0 00 02 01 21 00", 26),
    ] {
        for before in 0..3 {
            let body = [&ero(&vec![9; before])[4..], &hex(wrong)].concat();
            let asked = [object(7, 1, 0, &body), rp(1, 0)];
            assert_eq!(refused(&asked), (number, 8 * before as u32), "{wrong}");
            // 21 at 1 goes before.
            let metric = metric(1, 0, 0x7F80_0000);
            assert_eq!(refused(&[&asked[..], &[metric]].concat()), (21, 1));
        }
    }
}

#[test]
fn capacities() {
    let whole = hex(PATH);
    for room in [[4, 1, 1, 1], [5, 2, 3, 4]] {
        assert_eq!(read_into(&whole, room), Ok(spuz()));
    }
    for short in [
        [3, 1, 1, 1],
        [4, 0, 1, 1],
        [4, 1, 0, 1],
        [4, 1, 1, 0],
        [0; 4],
    ] {
        assert_eq!(read_into(&whole, short), Err((34, 0)), "{short:?}");
    }
    assert_eq!(read_into(&hex(NONE), [0; 4]), Ok(none()));
    let empty = message(PCREP, &[rp(1, 0), ero(&[])]);
    assert_eq!(read_into(&empty, [0; 4]), plain(Ok(vec![])));
    let wrong = message(PCREP, &[rp(1, 0), object(7, 1, 0, &[1, 8, 0, 0])]);
    assert_eq!(read_into(&wrong, [0; 4]), Err((23, 0)), "34 last");
}
