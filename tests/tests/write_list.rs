//! write_list: the library against the reference, on generated sequences and
//! on document 01's worked cases; what it writes read back by read_include; and
//! what a caller may count on besides the answer.

use reference::generate::{self, Random, WriteCase};
use tests::by_hand::{domain, file, profile_w, U};
use tests::compare::{seeds, Counts, Kinds, Lent};
use tests::lists::{bare, domain_kind, entry, long_as, read, verdict};
use tests::stack;
use tests::writing::{old_bytes, sequence, write, WriteList, LONGEST, LONGEST_OF_ALL};

#[test]
fn generated_sequences() {
    let mut counts = Counts::default();
    let mut kinds = Kinds::default();
    for seed in seeds(24_000) {
        let case = generate::write_case(seed);
        let which = format_args!("write_case({seed})");
        let written = WriteList::of(&case, Lent::new(&case.out)).write(which);
        counts.add(verdict(&written));
        kinds.add(match (&written, case.out.len()) {
            (Err((34, _)), 0) => "capacity 0",
            (Err((34, _)), _) => "capacity short",
            (Ok(list), capacity) if list.len() == capacity => "capacity exact",
            (Ok(_), _) => "capacity more",
            (Err((35, _)), _) => refused_kind(&case),
            _ => "profile refused",
        });
    }
    let possible: Vec<u32> = [0].into_iter().chain(10..=19).chain([34, 35]).collect();
    counts.cover("write_list, generated", &possible);
    let wanted = [
        "capacity 0",
        "capacity short",
        "capacity exact",
        "capacity more",
        "profile refused",
        "refused: no domain",
        "refused: over 16 domains",
        "refused: counts differ",
        "refused: bad index",
        "refused: mark over 1",
        "refused: first domain constrained",
        "refused: domain twice",
    ];
    kinds.cover("write_list, generated", &wanted.map(String::from));
}

/// The first cause of 35 that a sequence has.
fn refused_kind(case: &WriteCase) -> &'static str {
    let count = case.domains.len();
    let known = u16::from_be_bytes([case.profile[6], case.profile[7]]);
    if count == 0 {
        "refused: no domain"
    } else if count > 16 {
        "refused: over 16 domains"
    } else if case.pinned.len() != count || case.pins.len() != count {
        "refused: counts differ"
    } else if case.domains.iter().any(|&index| index >= known) {
        "refused: bad index"
    } else if case.pinned.iter().any(|&mark| mark > 1) {
        "refused: mark over 1"
    } else if case.pinned[0] == 1 {
        "refused: first domain constrained"
    } else {
        "refused: domain twice"
    }
}

/// The round trip: with the first domain as ingress, read_include gives back
/// the sequence and its entry constraints.
#[test]
fn what_is_written_reads_back() {
    let mut kinds = Kinds::default();
    let mut longest = 0;
    for seed in seeds(20_000) {
        let case = generate::valid_write_case(seed);
        let which = format!("valid_write_case({seed})");
        let list = WriteList::of(&case, Lent::new(&case.out)).write(&which);
        let list = list.unwrap_or_else(|refused| panic!("{which}: {refused:?}"));
        let reading = read(&case.profile, case.domains[0], &list, &which);
        let expected = sequence(&case.domains, &case.pinned, &case.pins);
        assert_eq!(reading, expected, "{which}: {list:02X?}");
        kinds.add(domain_kind(case.domains.len()));
        let constrained = case.pinned.iter().filter(|&&mark| mark == 1).count();
        kinds.add(format!("{constrained:>2} entry constraints"));
        longest = longest.max(list.len());
        // Into exactly as many bytes, and into one less.
        let exact = WriteList::of(&case, old_bytes(list.len())).write(&which);
        assert_eq!(exact, Ok(list.clone()), "{which}");
        let short = WriteList::of(&case, old_bytes(list.len() - 1)).write(&which);
        assert_eq!(short, Err((34, 0)), "{which}");
    }
    let domains = (1..=16).map(domain_kind);
    let constrained = (0..=15).map(|count| format!("{count:>2} entry constraints"));
    let wanted: Vec<String> = domains.chain(constrained).collect();
    kinds.cover("write_list, read back", &wanted);
    println!("longest list: {longest} bytes");
    assert!(longest > 400 && longest <= LONGEST);
}

#[test]
fn a_damaged_profile_is_told_whatever_the_rest() {
    for seed in seeds(3_000) {
        let damaged = generate::damaged_profile(seed);
        let random = &mut Random::new(seed, 105);
        let count = random.pick(&[0, 1, 17]);
        let domains: Vec<u16> = (0..count).collect();
        let marks = random.bytes(domains.len());
        let written = WriteList {
            profile: &damaged.bytes,
            domains: &domains,
            pinned: &marks,
            pins: &[],
            exrs_counts: &[1],
            exrs: &[],
            out: old_bytes(random.pick(&[0, LONGEST])),
        }
        .write(format_args!("damaged_profile({seed})"));
        let expected = (damaged.number, damaged.place as u32);
        assert_eq!(written, Err(expected), "damaged_profile({seed})");
    }
}

// Document 01's worked cases.

#[test]
fn worked_figure_3() {
    let records = [(64500, 0), (64501, 0), (64501, 4)];
    let domains = records.map(|(of, area)| domain(of, 1, &[0, 0, 0, area]));
    let written = write(&file(0, &domains, &[]), &[0, 1, 2], &[0; 3], &[0; 3]);
    let expected = [
        0x05, 0x08, 0x00, 0x00, 0x00, 0x00, 0xFB, 0xF4, 0x06, 0x08, 0x00, 0x00, 0x00, 0x00, 0x00,
        0x00, 0x05, 0x08, 0x00, 0x00, 0x00, 0x00, 0xFB, 0xF5, 0x06, 0x08, 0x00, 0x00, 0x00, 0x00,
        0x00, 0x00, 0x06, 0x08, 0x00, 0x00, 0x00, 0x00, 0x00, 0x04,
    ];
    assert_eq!(written, Ok(expected.to_vec()));
}

#[test]
fn worked_profile_w_with_u_constrained() {
    let written = write(&profile_w(), &[0, 1, 2], &[0, 0, 1], &[0, 0, U]);
    let expected = [long_as(64496), long_as(64497), entry(U), long_as(64498)];
    assert_eq!(written, Ok(expected.concat()));
}

// What a caller may count on besides the answer.

#[test]
fn a_count_is_more_than_32_bits() {
    // Zero pages that are never looked at take no memory.
    let mut zeros = vec![0; (1 << 32) + 3];
    let (profile, domains, pins) = (profile_w(), [0, 1, 2], [0; 3]);
    let mut numbers = [7; 2];
    let mut out = [0; 24];
    let mut into = |pinned: &[u8], exrs: &[u8]| {
        let number = tests::write_list(
            &profile,
            &domains,
            pinned,
            &pins,
            &[0; 3],
            exrs,
            &mut out,
            &mut numbers,
        );
        assert_eq!((number, numbers), (35, [0, 0]));
    };
    into(&zeros, &[]);
    into(&[0; 3], &zeros[..1 << 32]);
    let out = &mut zeros[..1 << 32];
    let number = tests::write_list(
        &profile,
        &domains,
        &[0; 3],
        &pins,
        &[0; 3],
        &[],
        out,
        &mut numbers,
    );
    assert_eq!((number, numbers), (0, [0, 24]));
    let expected = [64496, 64497, 64498].map(long_as);
    assert_eq!(out[..24], expected.concat());
}

#[test]
fn bytes_may_lie_at_any_address() {
    let profile = generate::largest_profile(3);
    let (domains, marks): (Vec<u16>, _) = ((0..16).collect(), [0; 16]);
    for offset in 0..16 {
        let bytes = [&vec![0xFF; offset], &profile[..], &marks].concat();
        let (profile, marks) = bytes[offset..].split_at(profile.len());
        let mut out = [0xAA; 1_000];
        let mut numbers = [7; 2];
        let out = &mut out[offset..];
        let words = [0; 16];
        let number = tests::write_list(
            profile,
            &domains,
            marks,
            &words,
            &words,
            &[],
            out,
            &mut numbers,
        );
        assert_eq!((number, numbers[0]), (0, 0), "{offset}");
        let list = &out[..numbers[1] as usize];
        assert_eq!(read(profile, 0, list, offset), bare(0..16), "{offset}");
    }
}

#[test]
fn only_the_two_numbers_are_stored() {
    for (domains, expected) in [([0, 1], [7, 0, 16, 7]), ([0, 3], [7, 0, 0, 7])] {
        let mut around = [7; 4];
        let numbers = (&mut around[1..3]).try_into().expect("two numbers");
        let mut out = [0; 16];
        let (profile, words) = (profile_w(), [0; 2]);
        tests::write_list(
            &profile,
            &domains,
            &[0; 2],
            &words,
            &words,
            &[],
            &mut out,
            numbers,
        );
        assert_eq!(around, expected);
    }
}

#[test]
fn stack_of_at_most_16_kib() {
    let used = |case: &WriteCase| {
        let (mut out, mut numbers) = ([0; LONGEST_OF_ALL], [0; 2]);
        stack::bytes_used(|| {
            tests::write_list(
                &case.profile,
                &case.domains,
                &case.pinned,
                &case.pins,
                &case.exrs_counts,
                &case.exrs,
                &mut out,
                &mut numbers,
            );
        })
    };
    let mut largest = WriteCase {
        profile: generate::largest_profile(4),
        domains: (0..16).collect(),
        pinned: vec![1; 16],
        pins: vec![7; 16],
        exrs_counts: vec![0; 16],
        exrs: Vec::new(),
        out: Vec::new(),
    };
    largest.pinned[0] = 0;
    let plain = (0..500).map(generate::write_case);
    let generated = plain.chain((0..500).map(generate::exrs_write_case));
    let most = generated
        .map(|case| used(&case))
        .fold(used(&largest), usize::max);
    println!("\nwrite_list: {most} bytes of stack");
    assert!(most <= 16 * 1024);
}
