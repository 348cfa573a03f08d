//! check_profile: the library against the reference, on generated profiles, on
//! every small change to a few of them, and on files made by hand at the edges
//! of each rule.

use reference::generate::{self, Random};
use tests::by_hand::{domain, file, header, hop, profile_w};
use tests::compare::{compare, seeds, Answer, Case, Counts};
use tests::stack;

struct CheckProfile<'a>(&'a [u8]);

impl Case for CheckProfile<'_> {
    type Call = fn(&[u8], &mut [u32; 1]) -> u32;
    type Answer = Answer<1>;

    const LIBRARY: Self::Call = tests::check_profile;
    const REFERENCE: Self::Call = reference::check_profile;

    fn answer(&self, call: Self::Call) -> Answer<1> {
        Answer::of((), |(), numbers| call(self.0, numbers))
    }
}

/// Number and place, the same from both programs.
#[track_caller]
fn check(profile: &[u8], which: impl std::fmt::Display) -> (u32, u32) {
    compare(&CheckProfile(profile), which).verdict()
}

const ALL: [u32; 11] = [0, 10, 11, 12, 13, 14, 15, 16, 17, 18, 19];

#[test]
fn generated_profiles() {
    let mut counts = Counts::default();
    for seed in seeds(20_000) {
        let profile = generate::profile_case(seed);
        counts.add(check(&profile, format_args!("profile_case({seed})")));
    }
    counts.cover("check_profile, generated", &ALL);
}

#[test]
fn planned_damage_is_found_at_its_place() {
    let mut counts = Counts::default();
    for seed in seeds(8_000) {
        let damaged = generate::damaged_profile(seed);
        let found = check(&damaged.bytes, format_args!("damaged_profile({seed})"));
        assert_eq!(found, (damaged.number, damaged.place as u32), "{seed}");
        counts.add(found);
    }
    counts.cover("check_profile, one thing wrong", &ALL[1..]);
    for number in 14..=19 {
        assert!(counts.places(number) > 30, "{number} at too few places");
    }
}

#[test]
fn valid_profiles_pass() {
    for seed in seeds(3_000) {
        let profile = generate::valid_profile(seed);
        let found = check(&profile, format_args!("valid_profile({seed})"));
        assert_eq!(found, (0, 0), "{seed}");
    }
}

// Document 01's worked cases on profiles that have no star.

#[test]
fn worked_as_numbers() {
    let of_class_0 = |as_number| {
        let profile = file(0, &[domain(as_number, 0, &[])], &[]);
        check(&profile, format_args!("AS {as_number}"))
    };
    for as_number in [64511, 65536, 65551] {
        assert_eq!(of_class_0(as_number), (0, 0), "{as_number}");
    }
    for as_number in [64512, 65535, 65552] {
        assert_eq!(of_class_0(as_number), (16, 0), "{as_number}");
    }
}

#[test]
fn worked_hop_counts() {
    let with_hops = |count: u32| {
        let node = |n| 0xC000_0200 + n;
        let hops: Vec<_> = (0..count)
            .map(|i| hop(0, 0, node(i / 200), node(i % 200), 0, 0))
            .collect();
        let profile = file(0, &[domain(64496, 0, &[])], &hops);
        check(&profile, format_args!("{count} hops"))
    };
    assert_eq!(with_hops(3000), (0, 0));
    assert_eq!(with_hops(3001), (12, 0));
}

// Every small change to a few profiles.

/// A live profile with areas of both kinds and hops inside and between.
fn profile_with_areas() -> Vec<u8> {
    let full = [0x49, 1, 2, 3, 4, 5, 6, 7, 8, 9, 10, 11, 12];
    let domains = [
        domain(0x0001_0203, 1, &[0, 0, 1, 0]),
        domain(0x0001_0203, 2, &full[..3]),
        domain(0x0001_0203, 2, &full),
        domain(0x0102_0304, 0, &[]),
    ];
    let hops = [
        hop(0, 0, 0x0A00_0001, 0x0A00_0001, 0, 0),
        hop(0, 1, 0x0A00_0001, 0x0A00_0102, 16_777_215, 0x7F7F_FFFF),
        hop(0, 1, 0x0A00_0001, 0x0A00_0103, 0, 1),
        hop(3, 2, 0x0A01_0001, 0x0A00_0102, 256, 0x447A_0000),
    ];
    file(1, &domains, &hops)
}

#[test]
fn any_byte_of_a_small_profile_changed_to_any_other() {
    for (name, profile) in [("W", profile_w()), ("areas", profile_with_areas())] {
        assert_eq!(check(&profile, name), (0, 0));
        for at in 0..profile.len() {
            let mut changed = profile.clone();
            for value in 0..=255 {
                changed[at] = value;
                check(&changed, format_args!("{name}, byte {at} set to {value}"));
            }
        }
    }
}

#[test]
fn each_byte_of_the_largest_profile_changed() {
    let mut profile = generate::largest_profile(1);
    let random = &mut Random::new(1, 100);
    for at in 0..profile.len() {
        let change = random.between(1, 255) as u8;
        profile[at] ^= change;
        check(&profile, format_args!("byte {at} changed by {change}"));
        profile[at] ^= change;
    }
}

#[test]
fn every_length() {
    let mut profile = generate::largest_profile(2);
    let whole = profile.len();
    assert_eq!(whole, 61_292);
    profile.resize(whole + 1_000, 0);
    for length in 0..=profile.len() {
        let expected = match length {
            0..=11 => (10, 0),
            _ if length == whole => (0, 0),
            _ => (13, 0),
        };
        let found = check(&profile[..length], format_args!("{length} bytes"));
        assert_eq!(found, expected, "{length} bytes");
    }
}

#[test]
fn a_length_is_more_than_32_bits() {
    let profile = profile_w();
    // Zero pages that are never looked at take no memory.
    let mut long = vec![0; (1 << 32) + profile.len()];
    long[..profile.len()].copy_from_slice(&profile);
    assert_eq!(check(&long, "4 GiB and W"), (13, 0));
}

/// Classes and counts around their limits, in files of the length they ask for
/// and one byte short of it; only the first records are anything but zero.
#[test]
fn classes_and_counts_around_their_limits() {
    let random = &mut Random::new(1, 101);
    for domains in [0, 1, 2, 63, 64, 65, 66, 255, 256, 65_535] {
        for hops in [0, 1, 255, 256, 2_999, 3_000, 3_001, 65_535] {
            let records = usize::from(domains) + usize::from(hops);
            let mut body = random.bytes(20 * records.min(70));
            body.resize(20 * records, 0);
            for class in [0, 1, 2, 255] {
                let which = format!("class {class}, {domains} domains, {hops} hops");
                let mut profile = header(class, domains, hops);
                profile.extend(&body);
                check(&profile, &which);
                profile.pop();
                check(&profile, &which);
            }
        }
    }
}

// The edges of each rule on records.

#[test]
fn every_area_kind_and_length() {
    for kind in 0..=255 {
        for length in 0..=255 {
            for set in [None, Some(6), Some(10), Some(17), Some(18), Some(19)] {
                let mut record = domain(64496, kind, &[]);
                record[5] = length;
                if let Some(at) = set {
                    record[at] = 1;
                }
                let which = format_args!("kind {kind}, length {length}, byte {set:?} set");
                check(&file(0, &[record], &[]), which);
            }
        }
    }
}

#[test]
fn every_edge_of_the_reserved_ranges() {
    let around = |edges: &[u32]| -> Vec<u32> {
        edges.iter().flat_map(|&edge| edge - 1..=edge + 1).collect()
    };
    for class in [0, 1] {
        for as_number in around(&[1, 23456, 64496, 64511, 65536, 65551, u32::MAX - 1]) {
            let profile = file(class, &[domain(as_number, 0, &[])], &[]);
            check(&profile, format_args!("class {class}, AS {as_number}"));
        }
        let inside = if class == 0 { 0xC000_0207 } else { 7 };
        let own_as = if class == 0 { 64496 } else { 7 };
        for edge in [0xC000_0200, 0xC633_6400, 0xCB00_7100] {
            for node in around(&[1, edge, edge + 0xFF, edge + 0x1_0000, u32::MAX - 1]) {
                for (u, v) in [(node, inside), (inside, node), (node, node)] {
                    let hops = [hop(0, 0, u, v, 0, 0)];
                    let profile = file(class, &[domain(own_as, 0, &[])], &hops);
                    check(&profile, format_args!("class {class}, {u:08X} {v:08X}"));
                }
            }
        }
    }
}

/// Of two records the first byte that differs decides, whatever follows.
#[test]
fn order_is_that_of_the_first_byte_that_differs() {
    let record = domain(0x0101_0101, 2, &[1; 13]);
    let as_and_area: Vec<usize> = (0..4).chain(6..19).collect();
    let live = |records: &[Vec<u8>]| file(1, records, &[]);
    order_of(&record, &as_and_area, live, (15, 1));

    let record = hop(1, 1, 0x0101_0101, 0x0101_0101, 9, 9);
    let low_bytes_and_nodes: Vec<usize> = [1, 3].into_iter().chain(4..12).collect();
    let domains = [1, 2, 3].map(|as_number| domain(as_number, 0, &[]));
    let live = |records: &[Vec<u8>]| file(1, &domains, records);
    order_of(&record, &low_bytes_and_nodes, live, (18, 4));
}

/// The record before and after each one that is above it at one of `places`,
/// and at the later ones equal to it or below it.
fn order_of(
    record: &Vec<u8>,
    places: &[usize],
    profile: impl Fn(&[Vec<u8>]) -> Vec<u8>,
    refused: (u32, u32),
) {
    for (i, &at) in places.iter().enumerate() {
        for later in [&places[i + 1..], &[]] {
            let mut above = record.clone();
            above[at] += 1;
            later.iter().for_each(|&place| above[place] -= 1);
            for (pair, expected) in [
                ([record, &above], (0, 0)),
                ([&above, record], refused),
                ([&above, &above], refused),
            ] {
                let which = format!("{pair:02X?}");
                let found = check(&profile(&pair.map(Vec::clone)), &which);
                assert_eq!(found, expected, "{which}");
            }
        }
    }
}

/// Pairs of domains with 14 to 20 entry nodes, each met from several nodes.
#[test]
fn around_sixteen_entry_nodes() {
    let mut counts = Counts::default();
    for seed in seeds(3_000) {
        let random = &mut Random::new(seed, 102);
        let domains = [domain(64496, 0, &[]), domain(64497, 0, &[])];
        let mut hops = Vec::new();
        for (from, to) in [(0, 0), (0, 1), (1, 0), (1, 1)] {
            let nodes = random.between(14, 20) as u32;
            for u in 0..random.between(1, 4) as u32 {
                for v in (0..nodes).filter(|_| random.chance(7, 8)) {
                    hops.push(hop(from, to, 0xC000_0200 + u, 0xCB00_7100 + v, 0, 0));
                }
            }
        }
        let profile = file(0, &domains, &hops);
        counts.add(check(&profile, format_args!("seed {seed}")));
    }
    counts.cover("check_profile, entry nodes", &[0, 19]);
    assert!(counts.places(19) > 50);
}

// What a caller may count on besides the answer.

#[test]
fn a_profile_may_lie_at_any_address() {
    let profile = generate::largest_profile(3);
    for offset in 0..16 {
        let mut bytes = vec![0xFF; offset];
        bytes.extend(&profile);
        assert_eq!(check(&bytes[offset..], offset), (0, 0));
    }
}

#[test]
fn only_the_one_number_is_stored() {
    for profile in [profile_w(), profile_w()[..40].to_vec()] {
        let mut around = [7; 3];
        let numbers = (&mut around[1..2]).try_into().expect("one number");
        tests::check_profile(&profile, numbers);
        assert_eq!(around, [7, 0, 7]);
    }
}

#[test]
fn stack_of_at_most_16_kib() {
    let largest = generate::largest_profile(4);
    let damaged = (0..200).map(|seed| generate::damaged_profile(seed).bytes);
    let most = std::iter::once(largest)
        .chain(damaged)
        .map(|profile| stack::bytes_used(|| _ = tests::check_profile(&profile, &mut [0])))
        .max();
    println!("\ncheck_profile: {} bytes of stack", most.unwrap_or(0));
    assert!(most.is_some_and(|bytes| bytes <= 16 * 1024));
}
