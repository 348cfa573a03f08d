//! AS numbers that are nobody's (document 02's request [6]) in profiles: 14 at the
//! domain record that has one, from every call that takes a profile.

use reference::generate;
use reference::Request;
use tests::by_hand::ask;
use tests::by_hand::nobodys::profiles;
use tests::compare::{seeds, Counts, Kinds};
use tests::every_call::{verdicts, CALLS};
use tests::nobodys::{with_as, NOBODYS, OTHERS};
use tests::wide::hops_at;

/// What each call answers on an accepted profile without hops, with no include
/// list: first finds no path, and next none after anything.
const NO_PATH: [u32; CALLS] = [0, 0, 0, 0, 1, 2, 1, 0, 1, 2];

#[test]
fn typed_in() {
    let mut counts = Counts::default();
    for (profile, told) in profiles() {
        let which = format!("{profile:02X?}");
        let found = verdicts(&ask(&profile, &[]), &which);
        match told {
            (0, _) => assert_eq!(found, NO_PATH.map(|number| (number, 0)), "{which}"),
            _ => assert_eq!(found, [told; CALLS], "{which}"),
        }
        found.into_iter().for_each(|verdict| counts.add(verdict));
    }
    let numbers = [0, 1, 2, 12, 13, 14, 15, 16];
    counts.cover("nobody's AS, profiles typed in", &numbers);
    assert!(counts.places(14) >= 4);
}

/// How an AS was put into a domain record.
const WAYS: [&str; 2] = ["where it stands", "in its order"];

/// An AS that was put into a domain record.
struct Put {
    as_number: u32,
    way: &'static str,
    place: u32,
    which: String,
}

/// Puts each of these AS numbers into each domain record of the request's profile,
/// in both ways, and hands on what every call tells.
fn put_into_each(
    request: &Request,
    as_numbers: &[u32],
    which: &str,
    mut told: impl FnMut(&Put, [(u32, u32); CALLS]),
) {
    let profile = request.profile;
    for index in 0..(hops_at(profile) - 12) / 20 {
        for &as_number in as_numbers {
            for (way, (profile, place)) in WAYS.into_iter().zip(with_as(profile, index, as_number))
            {
                let put = Put {
                    as_number,
                    way,
                    place,
                    which: format!("{which}: AS {as_number} for record {index} {way}"),
                };
                let profile = &profile;
                let request = Request {
                    profile,
                    ..*request
                };
                told(&put, verdicts(&request, &put.which));
            }
        }
    }
}

fn kind(class: u8, as_number: u32, way: &str) -> String {
    format!("class {class}, AS {as_number:>5} {way}")
}

fn all_kinds() -> Vec<String> {
    let of_class = |class| NOBODYS.map(|as_number| WAYS.map(|way| kind(class, as_number, way)));
    [0, 1].map(of_class).concat().concat()
}

/// 14 at the record, from every call: on small profiles with a request that they
/// answer, and on profiles of any shape.
#[test]
fn in_every_domain_record() {
    let (mut counts, mut kinds) = (Counts::default(), Kinds::default());
    let mut refuse = |request: &Request, which: &str| {
        put_into_each(request, &NOBODYS, which, |put, found| {
            assert_eq!(found, [(14, put.place); CALLS], "{}", put.which);
            counts.add(found[0]);
            kinds.add(kind(request.profile[5], put.as_number, put.way));
        });
    };
    for seed in seeds(400) {
        let case = generate::small_request_case(seed);
        refuse(&case.request(), &format!("small_request_case({seed})"));
    }
    for seed in seeds(200) {
        let profile = generate::valid_profile(seed);
        refuse(&ask(&profile, &[]), &format!("valid_profile({seed})"));
    }
    counts.cover("nobody's AS in domain records", &[14]);
    assert!(counts.places(14) >= 60);
    kinds.cover("nobody's AS in domain records", &all_kinds());
}

/// Another number there is never 14, whatever else it breaks.
#[test]
fn others_in_every_domain_record() {
    let mut counts = Counts::default();
    for seed in seeds(400) {
        let case = generate::small_request_case(seed);
        let which = format!("small_request_case({seed})");
        put_into_each(&case.request(), &OTHERS, &which, |put, found| {
            let never = found.iter().all(|told| told.0 != 14);
            assert!(never, "{}: {found:?}", put.which);
            counts.add(found[0]);
        });
    }
    counts.cover("other AS in domain records", &[0, 15, 16]);
}
