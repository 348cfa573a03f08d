//! AS numbers that are nobody's (document 02's request [6]) in lists: 26 at the
//! subobject that has one, in either list and inside an EXRS, from every call that
//! takes the list; 35 for an EXRS that is to be written.

use reference::generate::{self, Random, WriteCase};
use reference::Request;
use tests::by_hand::messages::hex;
use tests::by_hand::nobodys::{lists, neighbours, request, written};
use tests::compare::{seeds, Counts, Kinds};
use tests::every_call::verdicts;
use tests::lists::{read, verdict};
use tests::nobodys::{
    everywhere, forms, put_between, put_inside, Changed, NOBODYS, OTHERS, PLACES,
};
use tests::pcreq::{self, carry};
use tests::tree::build;
use tests::writing::{old_bytes, WriteList, Written, LONGEST_OF_ALL};

/// What the calls tell of a request's lists: of the include list alone, in each
/// call on the request, and in a reading of the message that carries it.
struct Told {
    alone: (u32, u32),
    calls: [(u32, u32); 7],
    carried: (u32, u32),
}

/// The profile is accepted.
#[track_caller]
fn tell(request: &Request, which: &str) -> Told {
    let [checked, alone, written, calls @ ..] = verdicts(request, which);
    assert_eq!([checked, written], [(0, 0); 2], "{which}");
    let carried = verdict(&pcreq::read(&carry(request), which));
    Told {
        alone,
        calls,
        carried,
    }
}

/// The lists typed in, each pair with its number and place.
#[test]
fn typed_in() {
    let mut counts = Counts::default();
    let (profile, pairs) = (neighbours(), lists());
    for (include, exclude, expected) in &pairs {
        let expected = *expected;
        let which = format!("{include} | {exclude}");
        let (include, exclude) = (hex(include), hex(exclude));
        let request = request(&profile, &include, &exclude);
        counts.add(expected);
        if exclude.is_empty() {
            let alone = verdict(&read(&profile, 0, &include, &which));
            assert_eq!(alone, expected, "{which}");
        }
        assert_eq!(verdict(&build(&request, &which)), expected, "{which}");
        if !include.len().is_multiple_of(4) {
            // Only a message of whole words can carry it.
            continue;
        }
        let told = tell(&request, &which);
        match expected.0 {
            0 => assert!(told.calls.iter().all(|call| call.0 <= 2), "{which}"),
            _ => assert_eq!(told.calls, [expected; 7], "{which}"),
        }
        let form = if expected.0 < 28 { expected } else { (0, 0) };
        assert_eq!(told.carried, form, "{which}");
    }
    for number in [0, 23, 24, 25, 27, 28, 29, 30, 31, 32, 42] {
        assert!(counts.cases(number) > 0, "{number}");
    }
    let (cases, places) = (counts.cases(26), counts.places(26));
    println!("\nnobody's AS, {} pairs of lists typed in", pairs.len());
    println!("{cases} times 26, at {places} places");
    assert!(cases >= 300 && places >= 8);
}

fn kind(piece: &[u8], place: &str) -> String {
    let as_number = &piece[piece.len() - 2..];
    format!("type {:>2}, AS {as_number:02X?} {place}", piece[0] & 0x7F)
}

fn all_kinds() -> Vec<String> {
    let of_piece = |piece: Vec<u8>| PLACES.map(|place| kind(&piece, place));
    forms(&NOBODYS).into_iter().flat_map(of_piece).collect()
}

/// Nobody's put anywhere into lists that are right: 26 there, from every call. A
/// reading of the include list alone doesn't see the other.
#[track_caller]
fn refuse(changed: &Changed, of: &Request, which: &str) -> (u32, u32) {
    let told = tell(&changed.request(of), which);
    let expected = (26, changed.offset);
    let alone = match changed.place == PLACES[3] {
        true => (0, 0),
        false => expected,
    };
    assert_eq!(told.calls, [expected; 7], "{which}");
    assert_eq!((told.alone, told.carried), (alone, expected), "{which}");
    expected
}

/// Another number put there: the form is right, and an exclusion is refused by
/// nothing else. Number and place of a reading of the include list.
#[track_caller]
fn take(changed: &Changed, of: &Request, which: &str) -> (u32, u32) {
    let told = tell(&changed.request(of), which);
    assert_eq!(told.carried, (0, 0), "{which}");
    if changed.place == PLACES[2] || changed.place == PLACES[3] {
        let fine = told.calls.iter().all(|call| call.0 <= 2);
        assert!(fine && told.alone == (0, 0), "{which}: {:?}", told.calls);
    }
    told.alone
}

#[test]
fn at_every_subobject() {
    let mut kinds = Kinds::default();
    let (mut refused, mut others) = (Counts::default(), Counts::default());
    let mut taken = 0;
    let other_forms = forms(&OTHERS);
    for seed in seeds(400) {
        // With EXRS, and with longer exclude lists.
        let (case, which) = match seed % 2 {
            0 => (generate::exrs_round_case(seed), "exrs_round_case"),
            _ => (generate::round_case(seed), "round_case"),
        };
        let base = case.request.request();
        let other = &other_forms[seed as usize % other_forms.len()];
        for piece in forms(&NOBODYS).iter().chain([other]) {
            for changed in everywhere(&base, piece) {
                let which = format!("{which}({seed}), {piece:02X?} at {}", changed.offset);
                if piece == other {
                    others.add(take(&changed, &base, &which));
                    taken += 1;
                } else {
                    refused.add(refuse(&changed, &base, &which));
                    kinds.add(kind(piece, changed.place));
                }
            }
        }
    }
    refused.cover("nobody's AS in lists", &[26]);
    assert!(refused.places(26) >= 30);
    kinds.cover("nobody's AS in lists", &all_kinds());
    let [read, lacked, never] = [0, 28, 26].map(|number| others.cases(number));
    println!("\nother AS in lists: {taken} cases, {read} are read, {lacked} times 28");
    assert!(read >= 100 && lacked >= 100 && never == 0);
}

/// Lists of right form that mean nothing: 26 wherever nobody's is put into them,
/// and from the exclude list beside them.
#[test]
fn before_every_meaning() {
    let (mut without, mut refused) = (Counts::default(), Counts::default());
    for seed in seeds(12_000) {
        let planned = generate::planned_exrs_include(seed);
        let Err(meaning @ (28..=32 | 42, _)) = planned.expected else {
            continue;
        };
        let random = &mut Random::new(seed, 120);
        let which = format!("planned_exrs_include({seed})");
        let (profile, ingress) = (&planned.profile, planned.ingress);
        let all = forms(&NOBODYS);
        let piece = &all[random.below(all.len())];
        let mut lists = put_between(&planned.include, piece);
        lists.extend(put_inside(&planned.include, piece));
        let (include, offset) = &lists[random.below(lists.len())];
        if include.len() > 1_024 {
            continue;
        }
        let told = verdict(&read(profile, ingress, include, &which));
        assert_eq!(told, (26, *offset), "{which}");
        let request = Request {
            ingress,
            ..request(profile, &planned.include, piece)
        };
        assert_eq!(verdict(&build(&request, &which)), (26, 0), "{which}");
        refused.add(told);
        without.add(meaning);
    }
    refused.cover("nobody's AS in lists without meaning", &[26]);
    let numbers = [28, 29, 30, 31, 32, 42];
    without.cover("what those lists are without it", &numbers);
}

// EXRS that are to be written.

#[track_caller]
fn write(case: &WriteCase, which: &str) -> Written {
    WriteList::of(case, old_bytes(LONGEST_OF_ALL + 9)).write(which)
}

#[test]
fn exrs_typed_in_for_the_writer() {
    for (exrs, is_written) in written() {
        let case = WriteCase {
            profile: neighbours(),
            domains: vec![0, 2],
            pinned: vec![0; 2],
            pins: vec![0; 2],
            exrs_counts: vec![0, exrs.len() as u32],
            exrs: exrs.clone(),
            out: Vec::new(),
        };
        let which = format!("{exrs:02X?}");
        let name = |number: u16| [&[5, 8, 0, 0, 0, 0], &number.to_be_bytes()[..]].concat();
        let expected = match is_written {
            true => Ok([name(1), exrs, name(23_457)].concat()),
            false => Err((35, 0)),
        };
        assert_eq!(write(&case, &which), expected, "{which}");
    }
}

/// The sequence with a subobject inside each of its EXRS, one at a time.
fn with_inside(case: &WriteCase, piece: &[u8]) -> Vec<WriteCase> {
    let put = put_inside(&case.exrs, piece);
    let changed = |(exrs, offset): (Vec<u8>, u32)| {
        let mut changed = case.clone();
        changed.exrs = exrs;
        let mut end = 0;
        let own = changed.exrs_counts.iter_mut().find(|count| {
            end += **count;
            offset <= end
        });
        *own.expect("some domain has the EXRS") += piece.len() as u32;
        changed
    };
    put.into_iter().map(changed).collect()
}

#[test]
fn exrs_for_the_writer() {
    let (mut refused, mut others) = (Counts::default(), Counts::default());
    let other_forms = forms(&OTHERS);
    for seed in seeds(1_000) {
        let case = generate::valid_exrs_write_case(seed);
        let which = format!("valid_exrs_write_case({seed})");
        let length = write(&case, &which).expect("it is written").len();
        if length + 8 > 1_024 {
            // Too long with an AS more, which is 35 too.
            continue;
        }
        for piece in forms(&NOBODYS) {
            for changed in with_inside(&case, &piece) {
                let told = verdict(&write(&changed, &which));
                assert_eq!(told, (35, 0), "{which}, {piece:02X?}");
                refused.add(told);
            }
        }
        let piece = &other_forms[seed as usize % other_forms.len()];
        for changed in with_inside(&case, piece) {
            let list = write(&changed, &which).expect("it is written");
            assert_eq!(list.len(), length + piece.len(), "{which}");
            others.add((0, 0));
        }
    }
    refused.cover("nobody's AS in EXRS to write", &[35]);
    others.cover("other AS in EXRS to write", &[0]);
}
