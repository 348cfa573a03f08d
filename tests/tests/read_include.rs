//! read_include: the library against the reference, on generated lists, on
//! lists whose meaning or fault is known from how they were made, and on
//! document 01's worked lists; capacities of the buffers, and stack.

use reference::generate::{self, Random};
use tests::by_hand::{domain, file, profile_w, SHORT};
use tests::compare::{seeds, Counts, Kinds};
use tests::lists::{
    bare, buffers, buffers_of, domain_kind, entry, ospf, read, verdict, ReadInclude,
};
use tests::stack;

/// Document 01's numbers for a call that takes a profile, an ingress and an
/// include list and fills buffers.
fn all_numbers() -> Vec<u32> {
    let checks = (10..=20).chain(22..=32);
    [0].into_iter().chain(checks).chain([34]).collect()
}

#[test]
fn generated_lists() {
    let mut counts = Counts::default();
    let mut kinds = Kinds::default();
    for seed in seeds(24_000) {
        let case = generate::include_case(seed);
        let reading = ReadInclude {
            profile: &case.profile,
            ingress: case.ingress,
            include: &case.include,
            buffers: buffers_of(&case),
        }
        .read(format_args!("include_case({seed})"));
        counts.add(verdict(&reading));
        kinds.add(length_kind(&case.include));
        subobject_kinds(&case.include, &mut kinds);
        if let Ok(stops) = &reading {
            kinds.add(domain_kind(stops.len()));
            let lent = [
                case.domains.len(),
                case.pinned.len(),
                case.pins.len(),
                case.exrs_counts.len(),
            ];
            kinds.add(capacity_kind(lent, stops.len()));
        }
    }
    counts.cover("read_include, generated", &all_numbers());
    for number in 23..=32 {
        let places = counts.places(number);
        assert!(places >= 30, "{number} at {places} offsets");
    }
    let lengths = LENGTHS.map(String::from);
    let domains = (1..=12).map(domain_kind);
    let capacities = ["all exact", "all more", "different"].map(|kind| format!("capacity {kind}"));
    let wanted: Vec<String> = lengths
        .into_iter()
        .chain(domains)
        .chain(capacities)
        .chain(all_subobject_kinds())
        .collect();
    kinds.cover("read_include, generated", &wanted);
}

// What a generated list is an example of.

const LENGTHS: [&str; 4] = [
    "list empty",
    "list under 1,024 bytes",
    "list of 1,024 bytes",
    "list over 1,024 bytes",
];

fn length_kind(list: &[u8]) -> &'static str {
    match list.len() {
        0 => LENGTHS[0],
        1..=1023 => LENGTHS[1],
        1024 => LENGTHS[2],
        _ => LENGTHS[3],
    }
}

fn capacity_kind(lent: [usize; 4], needed: usize) -> String {
    let kind = match lent {
        [a, b, c, d] if a != b || b != c || c != d => "different",
        [a, ..] if a == needed => "all exact",
        _ => "all more",
    };
    format!("capacity {kind}")
}

/// The subobjects up to the first whose length isn't its type's.
fn subobject_kinds(list: &[u8], kinds: &mut Kinds) {
    let mut rest = list;
    while let [first, length, third, fourth, ..] = *rest {
        let whole = match first {
            1 | 5 | 6 => 8,
            7 if (1..=13).contains(&third) => 4 + usize::from(third).div_ceil(4) * 4,
            32 => 4,
            _ => break,
        };
        if usize::from(length) != whole || rest.len() < whole {
            break;
        }
        kinds.add(format!("type {first:>2}"));
        let ignored = match first {
            1 => rest[7],
            5 | 6 => third | fourth,
            7 => fourth,
            _ => 0,
        };
        if ignored != 0 {
            kinds.add(format!("type {first:>2}, ignored byte set"));
        }
        if first == 7 {
            let padded = rest[4 + usize::from(third)..whole].iter().any(|&b| b != 0);
            let padding = if padded { "bad" } else { "good" };
            kinds.add(format!("IS-IS area of {third:>2}, padding {padding}"));
        }
        rest = &rest[whole..];
    }
}

fn all_subobject_kinds() -> Vec<String> {
    let types = [1, 5, 6, 7, 32].map(|kind| format!("type {kind:>2}"));
    let ignored = [1, 5, 6, 7].map(|kind| format!("type {kind:>2}, ignored byte set"));
    let good = (1..=13).map(|n| format!("IS-IS area of {n:>2}, padding good"));
    let bad = (1..=13).filter(|n| n % 4 != 0);
    let bad = bad.map(|n| format!("IS-IS area of {n:>2}, padding bad"));
    types
        .into_iter()
        .chain(ignored)
        .chain(good)
        .chain(bad)
        .collect()
}

/// Lists with a known answer, read into buffers of any capacity.
#[test]
fn planned_lists_give_what_they_were_made_for() {
    let mut counts = Counts::default();
    let mut kinds = Kinds::default();
    for seed in seeds(20_000) {
        let case = generate::planned_include(seed);
        let needed = case.expected.as_ref().map_or(16, Vec::len);
        let (lent, capacity) = planned_capacity(&mut Random::new(seed, 103), needed);
        let reading = ReadInclude {
            profile: &case.profile,
            ingress: case.ingress,
            include: &case.include,
            buffers: buffers(lent, 0),
        }
        .read(format_args!("planned_include({seed}), {lent:?}"));
        let fits = lent.iter().all(|&capacity| capacity >= needed);
        let expected = match case.expected {
            Ok(_) if !fits => Err((34, 0)),
            expected => expected,
        };
        assert_eq!(reading, expected, "planned_include({seed}), {lent:?}");
        counts.add(verdict(&reading));
        kinds.add(capacity);
        if let Ok(stops) = reading {
            kinds.add(domain_kind(stops.len()));
            let constrained = stops.iter().filter(|stop| stop.1.is_some()).count();
            kinds.add(format!("{constrained:>2} entry constraints"));
        }
    }
    let possible: Vec<u32> = [0].into_iter().chain(23..=32).chain([34]).collect();
    counts.cover("read_include, planned", &possible);
    let domains = (1..=16).map(domain_kind);
    let constrained = (0..=5).map(|count| format!("{count:>2} entry constraints"));
    let capacities = CAPACITIES.map(String::from);
    let wanted: Vec<String> = domains.chain(constrained).chain(capacities).collect();
    kinds.cover("read_include, planned", &wanted);
}

const CAPACITIES: [&str; 6] = [
    "capacity 0",
    "capacity one short",
    "capacity exact",
    "capacity more",
    "capacity short in one buffer",
    "capacity more in one buffer",
];

/// The capacities of the four buffers that have an element for each domain, and
/// which kind of choice they are.
fn planned_capacity(random: &mut Random, needed: usize) -> ([usize; 4], &'static str) {
    let which = random.below(4);
    let but = |capacity| {
        let mut lent = [needed; 4];
        lent[which] = capacity;
        lent
    };
    match random.below(12) {
        0 => ([0; 4], CAPACITIES[0]),
        1 => ([needed - 1; 4], CAPACITIES[1]),
        2 => (but(random.below(needed)), CAPACITIES[4]),
        3..=5 => (but(needed + random.between(1, 20)), CAPACITIES[5]),
        6..=8 => ([needed + random.between(1, 20); 4], CAPACITIES[3]),
        _ => ([needed; 4], CAPACITIES[2]),
    }
}

#[test]
fn a_damaged_profile_is_told_whatever_the_rest() {
    for seed in seeds(3_000) {
        let damaged = generate::damaged_profile(seed);
        let random = &mut Random::new(seed, 104);
        let length = random.pick(&[0, 8, 1024, 1025]);
        let include = random.bytes(length);
        let reading = ReadInclude {
            profile: &damaged.bytes,
            ingress: random.pick(&[0, 1, 64, u16::MAX]),
            include: &include,
            buffers: buffers([random.pick(&[0, 16]); 4], 0),
        }
        .read(format_args!("damaged_profile({seed})"));
        let expected = (damaged.number, damaged.place as u32);
        assert_eq!(reading, Err(expected), "damaged_profile({seed})");
    }
}

// Capacities, and what a caller may count on besides the answer.

#[test]
fn capacity_is_judged_on_each_buffer() {
    let areas: Vec<_> = (0..17).map(|i| domain(64496, 1, &[0, 0, 0, i])).collect();
    let profile = file(0, &areas, &[]);
    let mut counts = Counts::default();
    for needed in 1..=16 {
        let list: Vec<u8> = (1..needed as u32)
            .flat_map(|i| [entry(i), ospf(i)].concat())
            .collect();
        let capacities = [0, needed - 1, needed, needed + 1, 40];
        for lent in quadruples(&capacities) {
            let case = ReadInclude {
                profile: &profile,
                ingress: 0,
                include: &list,
                buffers: buffers(lent, 0),
            };
            let found = verdict(&case.read(format_args!("{needed} into {lent:?}")));
            let fits = lent.iter().all(|&capacity| capacity >= needed);
            let expected = if fits { (0, 0) } else { (34, 0) };
            assert_eq!(found, expected, "{needed} into {lent:?}");
            counts.add(found);
        }
    }
    counts.cover("read_include, capacities", &[0, 34]);
}

/// Every choice of four, with repetition.
fn quadruples(of: &[usize]) -> Vec<[usize; 4]> {
    let count = of.len();
    let digit = |code: usize, i| of[code / count.pow(i) % count];
    (0..count.pow(4))
        .map(|code| [0, 1, 2, 3].map(|i| digit(code, i)))
        .collect()
}

#[test]
fn a_length_is_more_than_32_bits() {
    // Zero pages that are never looked at take no memory.
    let mut long = vec![0; (1 << 32) + SHORT.len()];
    long[..SHORT.len()].copy_from_slice(&SHORT);
    let reading = read(&profile_w(), 0, &long, "4 GiB and a list");
    assert_eq!(reading, Err((22, 0)));
}

#[test]
fn a_capacity_is_more_than_32_bits() {
    let (mut domains, mut pinned, mut pins) = ([7; 3], vec![0; 1 << 32], [7; 3]);
    let (mut exrs_counts, mut exrs) = ([7; 3], vec![0; 1 << 32]);
    let mut numbers = [7; 3];
    let number = tests::read_include(
        &profile_w(),
        0,
        &SHORT,
        &mut domains,
        &mut pinned,
        &mut pins,
        &mut exrs_counts,
        &mut exrs,
        &mut numbers,
    );
    assert_eq!((number, numbers), (0, [0, 3, 0]));
    assert_eq!((domains, pins, exrs_counts), ([0, 1, 2], [0; 3], [0; 3]));
}

#[test]
fn inputs_may_lie_at_any_address() {
    let list = generate::largest_request(3).include;
    let profile = generate::largest_profile(3);
    for offset in 0..16 {
        let mut bytes = vec![0xFF; offset];
        bytes.extend([&profile[..], &list].concat());
        let (profile, list) = bytes[offset..].split_at(profile.len());
        assert_eq!(read(profile, 0, list, offset), bare(0..16));
    }
}

#[test]
fn only_the_three_numbers_are_stored() {
    for (list, expected) in [
        (&SHORT[..], [7, 0, 3, 0, 7]),
        (&SHORT[..6], [7, 4, 0, 0, 7]),
    ] {
        let mut around = [7; 5];
        let numbers = (&mut around[1..4]).try_into().expect("three numbers");
        let (mut domains, mut pinned, mut pins) = ([0; 3], [0; 3], [0; 3]);
        tests::read_include(
            &profile_w(),
            0,
            list,
            &mut domains,
            &mut pinned,
            &mut pins,
            &mut [0; 3],
            &mut [],
            numbers,
        );
        assert_eq!(around, expected);
    }
}

#[test]
fn stack_of_at_most_16_kib() {
    let largest = generate::largest_request(4);
    let used = |profile: &[u8], ingress, include: &[u8]| {
        let (mut domains, mut pinned, mut pins) = ([0; 16], [0; 16], [0; 16]);
        let (mut exrs_counts, mut exrs) = ([0; 16], [0; 1_024]);
        let mut numbers = [0; 3];
        stack::bytes_used(|| {
            tests::read_include(
                profile,
                ingress,
                include,
                &mut domains,
                &mut pinned,
                &mut pins,
                &mut exrs_counts,
                &mut exrs,
                &mut numbers,
            );
        })
    };
    let plain = (0..500).map(generate::include_case);
    let generated = plain.chain((0..500).map(generate::exrs_include_case));
    let generated = generated.map(|case| used(&case.profile, case.ingress, &case.include));
    let full = generate::largest_exrs_request(4, 1);
    let most = [
        used(&largest.profile, 0, &largest.include),
        used(&full.profile, 0, &full.include),
        used(&largest.profile, 0, &ospf(0).repeat(128)),
    ]
    .into_iter()
    .chain(generated)
    .max();
    println!("\nread_include: {} bytes of stack", most.unwrap_or(0));
    assert!(most.is_some_and(|bytes| bytes <= 16 * 1024));
}
