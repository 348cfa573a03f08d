//! The calls through a PCReq: the library against the reference, and against
//! its own calls on the request that the message carries.

use reference::generate;
use reference::{PcReq, Request};
use tests::by_hand::messages::*;
use tests::by_hand::{S, Z};
use tests::compare::{compare, seeds, Case, Counts, Kinds};
use tests::paths::{buffer, path_length};
use tests::pcreq::{ask, carry, listing, AskPath, AskTree};
use tests::tree::{buffers, TreeCase};
use tests::{paths, wrong};

#[test]
fn generated_messages() {
    let mut counts: [Counts; 3] = Default::default();
    for seed in seeds(24_000) {
        let case = generate::pcreq_case(seed);
        let which = format!("pcreq_case({seed})");
        let carries = matches!(case.expected, Some(Ok(_)));
        let told = ask(&case.next, &case.message, carries, &which);
        if let Some(Err(expected)) = case.expected {
            assert_eq!(told, [expected; 3], "{which}");
        }
        for (counts, told) in counts.iter_mut().zip(told) {
            counts.add(told);
        }
    }
    let numbers = |own: &[u32], after: &[u32]| {
        let checks: Vec<u32> = (10..=32).collect();
        [own, &checks, after, &[36, 37, 38, 39, 40]].concat()
    };
    counts[0].cover("pcreq_tree, generated", &numbers(&[0], &[34]));
    counts[1].cover("pcreq_first, generated", &numbers(&[0, 1], &[34]));
    counts[2].cover("pcreq_next, generated", &numbers(&[0, 2], &[33, 34]));
    for counts in counts {
        for number in (14..=18).chain(24..=28).chain([37, 38]) {
            assert!(counts.places(number) >= 15, "{number}");
        }
    }
}

/// Requests that decide between the rounds, carried by messages of any shape.
#[test]
fn rounds() {
    let mut kinds = Kinds::default();
    for seed in seeds(6_000) {
        let mut next = generate::round_case(seed);
        let (message, carried) = generate::carrying(seed, &next.request);
        next.request = carried;
        let which = format!("round_case({seed})");
        let [_, first, _] = ask(&next, &message, true, &which);
        let case = TreeCase {
            request: next.request.request(),
            buffers: buffers([241; 4]),
        };
        let round = case.answer(TreeCase::LIBRARY).numbers[3];
        kinds.add(format!("round {round}, first answers {}", first.0));
    }
    let wanted = [(1, 0), (1, 1), (2, 0), (2, 1)];
    let wanted = wanted.map(|(round, number)| format!("round {round}, first answers {number}"));
    kinds.cover("through a PCReq, rounds", &wanted);
}

/// All paths by first and next through a PCReq are those of the request.
#[test]
fn listings() {
    const MOST: usize = 300;
    let mut kinds = Kinds::default();
    let mut all = 0;
    for seed in seeds(6_000) {
        let case = generate::small_request_case(seed);
        let (message, carried) = generate::carrying(seed, &case);
        let request = carried.request();
        let asked = PcReq {
            profile: request.profile,
            ingress: request.ingress,
            message: &message,
        };
        let length = path_length(&request);
        let through = listing(&asked, length, MOST);
        assert_eq!(through, paths::listing(&request, MOST), "{seed}");
        all += through.0.len();
        kinds.add(match through.0.len() {
            0 => "no path",
            1 => "one path",
            2..=9 => "up to 9 paths",
            _ => "10 paths or more",
        });
    }
    println!("\nthrough a PCReq, listings: {all} paths");
    let wanted = ["no path", "one path", "up to 9 paths", "10 paths or more"];
    kinds.cover("through a PCReq, listings", &wanted.map(String::from));
}

/// A request that is carried with any number of things wrong, then too little
/// capacity; and the same behind a message that is wrong itself.
#[test]
fn the_first_thing_wrong_is_told() {
    let mut counts = Counts::default();
    let mut left_out = 0;
    let mut turn = 0;
    wrong::combinations(100, |request, told| {
        let words = [request.include, request.exclude];
        if !words.iter().all(|list| list.len().is_multiple_of(4)) {
            left_out += 1;
            return;
        }
        let whole = carry(request);
        let first = |message: &[u8], capacity| {
            let path = AskPath {
                asked: asked(request, message),
                given: None,
                path: buffer(capacity),
            };
            compare(&path, format_args!("{told:?}: {request:?}")).verdict()
        };
        // Of the include lists that are accepted each subobject is a domain.
        for (capacity, otherwise) in [(0, Some((34, 0))), (2 + request.include.len() / 4, None)] {
            let said = first(&whole, capacity);
            if let Some(expected) = told.or(otherwise) {
                assert_eq!(said, expected, "{request:?}");
            }
            counts.add(said);
        }
        turn += 1;
        let (wrong, expected) = spoiled(&whole, turn);
        assert_eq!(first(&wrong, 0), expected, "{request:?}");
        counts.add(expected);
    });
    println!("\npcreq_first: {left_out} with lists not of whole words left out");
    // Each list there that ends too early isn't of whole words.
    let checks = (10..=22)
        .chain(24..=32)
        .chain([34])
        .chain(36..=40)
        .chain([42]);
    let numbers: Vec<u32> = [0, 1].into_iter().chain(checks).collect();
    counts.cover("pcreq_first, the first thing wrong", &numbers);
}

fn asked<'a>(request: &Request<'a>, message: &'a [u8]) -> PcReq<'a> {
    PcReq {
        profile: request.profile,
        ingress: request.ingress,
        message,
    }
}

/// A message with one of five things wrong in its frame.
fn spoiled(whole: &[u8], turn: usize) -> (Vec<u8>, (u32, u32)) {
    let mut bytes = whole.to_vec();
    match turn % 5 {
        0 => bytes[1] = PCREP,
        1 => bytes[7] = 8,
        2 => {
            // END-POINTS of another type.
            bytes[17] = 0x22;
        }
        3 => bytes[5] = 0x20,
        _ => bytes[17] = 0x20,
    }
    let told = [(36, 0), (37, 4), (38, 16), (39, 0), (40, 0)];
    (bytes, told[turn % 5])
}

/// A profile that is refused is told before anything that the message carries.
#[test]
fn a_damaged_profile_behind_a_message() {
    let mut counts = Counts::default();
    let carried = [
        vec![],
        vec![bandwidth(u32::MAX)],
        vec![metric(1, 0, u32::MAX)],
        vec![iro(&[0; 1_028])],
        vec![xro(&[0; 4]), iro(&[1, 8, 0, 0])],
    ];
    for seed in seeds(3_000) {
        let damaged = generate::damaged_profile(seed);
        let expected = (damaged.number, damaged.place as u32);
        let more = &carried[(seed % 5) as usize];
        let whole = message(PCREQ, &[&[rp(1, 0), end_points(S, Z)], &more[..]].concat());
        for (bytes, expected) in [(whole.clone(), expected), spoiled(&whole, seed as usize)] {
            let asked = PcReq {
                profile: &damaged.bytes,
                ingress: 99,
                message: &bytes,
            };
            let which = format!("damaged_profile({seed})");
            for given in [None, Some(&[0; 3][..])] {
                let path = buffer(0);
                let case = AskPath { asked, given, path };
                assert_eq!(compare(&case, &which).verdict(), expected, "{which}");
                counts.add(expected);
            }
            let buffers = buffers([0; 4]);
            let tree = compare(&AskTree { asked, buffers }, &which);
            assert_eq!(tree.verdict(), expected, "{which}");
        }
    }
    let numbers: Vec<u32> = (10..=19).chain(36..=40).collect();
    counts.cover("through a PCReq, damaged profiles", &numbers);
}
