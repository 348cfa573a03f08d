//! read_include on lists with EXRS: the library against the reference, on
//! generated lists and on lists whose meaning or fault is known from how they
//! were made, into buffers of any capacity.

use reference::generate::{self, Random};
use tests::compare::{seeds, Counts, Kinds};
use tests::exrs::{all_read_kinds, read_kinds};
use tests::lists::{
    buffers, buffers_of, domain_kind, entry, excluded, exrs, five_domains, long_as, marked, read,
    short_as, verdict, ReadInclude,
};

/// The list has an EXRS, or what is left of one.
fn has_exrs(list: &[u8]) -> bool {
    let mut rest = list;
    while let [first, length, ..] = *rest {
        if first & 0x7F == 33 {
            return true;
        }
        rest = rest.get(usize::from(length.max(4))..).unwrap_or(&[]);
    }
    false
}

/// A refusal in form by where it stands: an EXRS itself, inside one, or another
/// subobject.
fn fault_kind(list: &[u8], (number, place): (u32, u32)) -> String {
    let place = place as usize;
    let mut offset = 0;
    while offset < place {
        let end = offset + usize::from(list[offset + 1]);
        if list[offset] & 0x7F == 33 && place < end {
            return format!("{number} inside an EXRS");
        }
        offset = end;
    }
    let own = list.get(place).is_some_and(|first| first & 0x7F == 33);
    match own {
        true => format!("{number} of an EXRS"),
        false => format!("{number} of another subobject"),
    }
}

fn all_fault_kinds() -> Vec<String> {
    let inside = [23, 24, 25, 26].map(|number| format!("{number} inside an EXRS"));
    let own = [23, 25, 26, 27].map(|number| format!("{number} of an EXRS"));
    let others = [23, 24, 25, 27].map(|number| format!("{number} of another subobject"));
    [inside, own, others].concat()
}

#[test]
fn generated_lists() {
    let mut counts = Counts::default();
    let mut kinds = Kinds::default();
    let mut with_exrs = 0;
    for seed in seeds(26_000) {
        let case = generate::exrs_include_case(seed);
        let reading = ReadInclude {
            profile: &case.profile,
            ingress: case.ingress,
            include: &case.include,
            buffers: buffers_of(&case),
        }
        .read(format_args!("exrs_include_case({seed})"));
        let told = verdict(&reading);
        counts.add(told);
        if (23..=27).contains(&told.0) {
            kinds.add(fault_kind(&case.include, told));
        }
        read_kinds(&case.include, &reading, &mut kinds);
        with_exrs += usize::from(has_exrs(&case.include));
    }
    let checks = (10..=20).chain(22..=32);
    let possible = [0].into_iter().chain(checks).chain([34, 42]);
    counts.cover("EXRS read, generated", &possible.collect::<Vec<u32>>());
    for number in (23..=30).chain([32, 42]) {
        let places = counts.places(number);
        assert!(places >= 40, "{number} at {places} offsets");
    }
    let wanted = [all_read_kinds(), all_fault_kinds()].concat();
    kinds.cover("EXRS read, generated", &wanted);
    println!("{with_exrs} lists with EXRS");
    assert!(with_exrs >= 20_000);
}

const CAPACITIES: [&str; 7] = [
    "capacity for domains one short",
    "capacity for marks one short",
    "capacity for nodes one short",
    "capacity for counts one short",
    "capacity for bytes one short",
    "capacity exact",
    "capacity more",
];

/// The capacities of the five buffers, and which kind of choice they are.
fn capacity(random: &mut Random, domains: usize, bytes: usize) -> ([usize; 5], &'static str) {
    let mut lent = [domains, domains, domains, domains, bytes];
    let kind = random.below(12).min(CAPACITIES.len());
    match kind {
        0..=4 => lent[kind] = lent[kind].saturating_sub(1),
        5 => {}
        _ => lent = lent.map(|needed| needed + random.below(20)),
    }
    (lent, CAPACITIES[kind.min(6)])
}

/// Lists with a known answer, with every buffer one too small in turn.
#[test]
fn planned_lists_give_what_they_were_made_for() {
    let mut counts = Counts::default();
    let mut kinds = Kinds::default();
    let mut with_exrs = 0;
    for seed in seeds(26_000) {
        let case = generate::planned_exrs_include(seed);
        let (domains, bytes) = case.expected.as_ref().map_or((16, 40), |stops| {
            let bytes = stops.iter().map(|stop| stop.2.len()).sum();
            (stops.len(), bytes)
        });
        let (lent, kind) = capacity(&mut Random::new(seed, 120), domains, bytes);
        let which = &format!("planned_exrs_include({seed}), {lent:?}");
        let reading = ReadInclude {
            profile: &case.profile,
            ingress: case.ingress,
            include: &case.include,
            buffers: buffers([lent[0], lent[1], lent[2], lent[3]], lent[4]),
        }
        .read(which);
        let fits = lent[..4].iter().all(|&capacity| capacity >= domains) && lent[4] >= bytes;
        let expected = match case.expected {
            Ok(_) if !fits => Err((34, 0)),
            expected => expected,
        };
        assert_eq!(reading, expected, "{which}");
        let told = verdict(&reading);
        counts.add(told);
        if (23..=27).contains(&told.0) {
            kinds.add(fault_kind(&case.include, told));
        }
        if let Ok(stops) = &reading {
            kinds.add(domain_kind(stops.len()));
        }
        if told.0 == 0 || told.0 == 34 {
            kinds.add(kind);
        }
        read_kinds(&case.include, &reading, &mut kinds);
        with_exrs += usize::from(has_exrs(&case.include));
    }
    let possible = [0].into_iter().chain(22..=32).chain([34, 42]);
    counts.cover("EXRS read, planned", &possible.collect::<Vec<u32>>());
    let domains = (1..=16).map(domain_kind);
    let capacities = CAPACITIES.map(String::from);
    let wanted: Vec<String> = domains
        .chain(capacities)
        .chain(all_read_kinds())
        .chain(all_fault_kinds())
        .collect();
    kinds.cover("EXRS read, planned", &wanted);
    println!("{with_exrs} lists with EXRS");
    assert!(with_exrs >= 20_000);
}

/// Each buffer at each capacity around the one needed, for lists with 0 to 6
/// EXRS.
#[test]
fn capacity_is_judged_on_each_buffer() {
    let profile = five_domains();
    let piece = exrs(&[short_as(9)]);
    let mut counts = Counts::default();
    for before in 0..=3 {
        for after in 0..=3 {
            let list = [
                piece.repeat(before),
                short_as(64498),
                piece.repeat(after),
                long_as(65536),
            ]
            .concat();
            let needed = [3, 3, 3, 3, 8 * (before + after)];
            for which in 0..5 {
                let around = needed[which].saturating_sub(9)..needed[which] + 9;
                for capacity in around.chain([0]) {
                    let mut lent = needed;
                    lent[which] = capacity;
                    let case = ReadInclude {
                        profile: &profile,
                        ingress: 0,
                        include: &list,
                        buffers: buffers([lent[0], lent[1], lent[2], lent[3]], lent[4]),
                    };
                    let found = verdict(&case.read(format_args!("{needed:?} into {lent:?}")));
                    let fits = capacity >= needed[which];
                    let expected = if fits { (0, 0) } else { (34, 0) };
                    assert_eq!(found, expected, "{needed:?} into {lent:?}");
                    counts.add(found);
                }
            }
        }
    }
    counts.cover("EXRS read, capacities", &[0, 34]);
}

/// 34 comes after everything that is wrong with the list.
#[test]
fn capacity_is_told_last() {
    let profile = five_domains();
    let piece = exrs(&[marked(excluded(7, 32))]);
    for (list, expected) in [
        ([piece.clone(), short_as(64498)].concat(), (34, 0)),
        (piece.clone(), (42, 0)),
        ([piece.clone(), entry(7)].concat(), (42, 0)),
        ([entry(7), piece.clone()].concat(), (32, 0)),
        ([piece.clone(), short_as(9)].concat(), (28, 12)),
        (exrs(&[excluded(7, 33)]), (26, 4)),
    ] {
        let case = ReadInclude {
            profile: &profile,
            ingress: 0,
            include: &list,
            buffers: buffers([0; 4], 0),
        };
        assert_eq!(verdict(&case.read("no room")), expected, "{list:02X?}");
        let enough = read(&profile, 0, &list, "room");
        let expected = if expected.0 == 34 { (0, 0) } else { expected };
        assert_eq!(verdict(&enough), expected, "{list:02X?}");
    }
}
