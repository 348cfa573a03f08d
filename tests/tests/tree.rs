//! tree: the library against the reference, on generated requests and on those
//! whose fault is known from how they were made; capacities of the buffers, the
//! largest profile, and stack.

use reference::generate::{self, Random, RequestCase};
use reference::{Question, Request};
use tests::by_hand::desired::any_desired;
use tests::by_hand::{ask, profile_w, P, Q, S, SHORT, T, U};
use tests::compare::{seeds, Counts, Kinds, Lent};
use tests::lists::{domain_kind, excluded, short_as, verdict};
use tests::tree::{buffers, build, Tree, TreeCase, MOST_ENTRIES};
use tests::{stack, wrong};

/// Document 01's numbers for a call that takes a whole request and fills
/// buffers; a list without EXRS is never 42.
fn all_numbers() -> Vec<u32> {
    [0].into_iter().chain(10..=32).chain([34]).collect()
}

fn of_case(case: &RequestCase) -> TreeCase<'_> {
    TreeCase {
        request: case.request(),
        buffers: (
            Lent::new(&case.level),
            Lent::new(&case.address),
            Lent::new(&case.reachable),
            Lent::new(&case.cost),
        ),
    }
}

#[test]
fn generated_requests() {
    let mut counts = Counts::default();
    let mut kinds = Kinds::default();
    for seed in seeds(40_000) {
        let case = generate::request_case(seed);
        let built = of_case(&case).build(format_args!("request_case({seed})"));
        counts.add(verdict(&built));
        if let Ok(tree) = &built {
            accepted_kinds(&case, tree, &mut kinds);
        }
        if let Err((34, _)) = built {
            let lent = [case.level.len(), case.address.len(), case.cost.len()];
            let same = lent == [case.reachable.len(); 3];
            kinds.add(if same { "all short" } else { "one short" });
        }
    }
    counts.cover("tree, generated", &all_numbers());
    for number in (14..=19).chain(23..=32) {
        let places = counts.places(number);
        assert!(places >= 20, "{number} at {places} places");
    }
    let wanted = KINDS.map(String::from).into_iter();
    let wanted: Vec<String> = wanted.chain((1..=12).map(domain_kind)).collect();
    kinds.cover("tree, generated", &wanted);
}

const KINDS: [&str; 14] = [
    "all short",
    "one short",
    "capacity exact",
    "capacity more",
    "source reachable",
    "source unreachable",
    "some entry unreachable",
    "entry constraint",
    "exclude list",
    "exclude list of 1,000 bytes or more",
    "exclusion desired, round 1",
    "exclusion desired, round 2",
    "bound counts",
    "bound out of range, doesn't count",
];

/// What a request that has a tree is an example of.
fn accepted_kinds(case: &RequestCase, tree: &Tree, kinds: &mut Kinds) {
    let request = case.request();
    let question = Question::accept(&request).expect("it has a tree");
    kinds.add(domain_kind(question.stops.len()));
    let exact = case.level.len() == tree.entries.len();
    let reached = tree.entries[0].2.is_some();
    let mut add = |holds: bool, kind: &str| {
        if holds {
            kinds.add(kind);
        }
    };
    add(exact, "capacity exact");
    add(!exact, "capacity more");
    add(reached, "source reachable");
    add(!reached, "source unreachable");
    let unreachable = tree.entries[1..].iter().any(|entry| entry.2.is_none());
    add(reached && unreachable, "some entry unreachable");
    let constrained = question.stops.iter().any(|stop| stop.entry.is_some());
    add(constrained, "entry constraint");
    add(!case.exclude.is_empty(), "exclude list");
    let long = case.exclude.len() >= 1_000;
    add(long, "exclude list of 1,000 bytes or more");
    let desired = any_desired(&case.exclude);
    add(desired && tree.round == 1, "exclusion desired, round 1");
    add(tree.round == 2, "exclusion desired, round 2");
    add(case.bound_counts, "bound counts");
    let unseen = !case.bound_counts && case.bound_bits >= 0x7F80_0000;
    add(unseen, "bound out of range, doesn't count");
}

/// Any number of things wrong at a time, and too little capacity for the rest.
#[test]
fn the_first_thing_wrong_is_told() {
    let mut counts = Counts::default();
    wrong::combinations(300, |request, told| {
        for capacity in [0, MOST_ENTRIES] {
            let case = TreeCase {
                request: *request,
                buffers: buffers([capacity; 4]),
            };
            let found = verdict(&case.build(format_args!("{told:?}: {request:?}")));
            let fits = if capacity == 0 { (34, 0) } else { (0, 0) };
            assert_eq!(found, told.unwrap_or(fits), "{request:?}");
            counts.add(found);
        }
    });
    let possible = [&all_numbers()[..], &[42]].concat();
    counts.cover("tree, the first thing wrong", &possible);
    for number in (14..=19).chain(21..=32) {
        assert!(counts.places(number) >= 2, "{number}");
    }
}

#[test]
fn a_damaged_profile_is_told_whatever_the_rest() {
    let mut counts = Counts::default();
    for seed in seeds(4_000) {
        let damaged = generate::damaged_profile(seed);
        let random = &mut Random::new(seed, 107);
        let lengths = [0, 8, 1024, 1025];
        let (include, exclude) = (random.pick(&lengths), random.pick(&lengths));
        let (include, exclude) = (random.bytes(include), random.bytes(exclude));
        let request = Request {
            ingress: random.pick(&[0, 1, 64, u16::MAX]),
            exclude: &exclude,
            bandwidth_bits: random.bits(),
            bound_counts: random.chance(1, 2),
            bound_bits: random.bits(),
            ..ask(&damaged.bytes, &include)
        };
        let found = verdict(&build(&request, format_args!("damaged_profile({seed})")));
        assert_eq!(found, (damaged.number, damaged.place as u32), "{seed}");
        counts.add(found);
    }
    let possible: Vec<u32> = (10..=19).collect();
    counts.cover("tree, damaged profiles", &possible);
}

/// Include lists with a known answer: the refusal, or entries at no other level
/// than those of the sequence.
#[test]
fn planned_includes_are_told_or_crossed() {
    let mut counts = Counts::default();
    for seed in seeds(20_000) {
        let case = generate::planned_include(seed);
        let request = Request {
            ingress: case.ingress,
            ..ask(&case.profile, &case.include)
        };
        let built = build(&request, format_args!("planned_include({seed})"));
        counts.add(verdict(&built));
        match (case.expected, built) {
            (Ok(stops), Ok(tree)) => {
                let deepest = tree.entries[tree.entries.len() - 1].0;
                assert!((deepest as usize) < stops.len(), "{seed}");
            }
            (expected, built) => assert_eq!(verdict(&built), verdict(&expected), "{seed}"),
        }
    }
    let possible: Vec<u32> = [0].into_iter().chain(23..=32).collect();
    counts.cover("tree, planned include lists", &possible);
}

// Capacities, the largest inputs, and what a caller may count on besides.

#[test]
fn capacity_is_judged_on_each_buffer() {
    let (w, largest) = (profile_w(), generate::largest_request(5));
    let wide = wrong::profile();
    let nine = short_as(64497);
    let mut counts = Counts::default();
    for (request, needed) in [
        (ask(&w, &[]), 1),
        (ask(&w, &SHORT[..4]), 3),
        (ask(&w, &SHORT), 5),
        (ask(&wide, &nine), 9),
        (largest.request(), MOST_ENTRIES),
    ] {
        let capacities = [0, needed - 1, needed, needed + 1];
        for code in 0..256 {
            let lent = [0, 2, 4, 6].map(|shift| capacities[code >> shift & 3]);
            let which = format!("{needed} into {lent:?}");
            let case = TreeCase {
                request,
                buffers: buffers(lent),
            };
            let found = verdict(&case.build(&which));
            let fits = lent.iter().all(|&capacity| capacity >= needed);
            assert_eq!(found, if fits { (0, 0) } else { (34, 0) }, "{which}");
            counts.add(found);
        }
    }
    counts.cover("tree, capacities", &[0, 34]);
}

/// 64 domains, 3,000 hops, a sequence of 16 and 16 entry nodes for each pair.
#[test]
fn the_largest_profile() {
    for seed in seeds(60) {
        let case = generate::largest_request(seed);
        assert_eq!(case.profile.len(), 61_292);
        let built = of_case(&case).build(format_args!("largest_request({seed})"));
        let tree = built.expect("it is accepted");
        assert_eq!((tree.entries.len(), tree.hops_examined), (241, 3_000));
        assert_eq!(tree.round, 1);
        assert!(tree.entries.iter().all(|entry| entry.2.is_some()));
    }
}

/// The list that crosses the domains 0 to 15, one of them with an entry
/// constraint.
fn crossing(profile: &[u8], constrained: usize, node: u32) -> Vec<u8> {
    let domains: [u16; 16] = std::array::from_fn(|i| i as u16);
    let pinned: [u8; 16] = std::array::from_fn(|i| u8::from(i == constrained));
    let (mut out, mut numbers) = ([0; 600], [0; 2]);
    reference::write_list(
        profile,
        &domains,
        &pinned,
        &[node; 16],
        &[0; 16],
        &[],
        &mut out,
        &mut numbers,
    );
    out[..numbers[1] as usize].to_vec()
}

/// Each entry of the largest profile's tree excluded, then the only one that its
/// domain may be entered through: nothing moves at its level or behind it but
/// the entries that are ruled out.
#[test]
fn each_entry_of_the_largest_profile_ruled_out() {
    let case = generate::largest_request(7);
    let whole = build(&case.request(), "largest_request(7)").expect("it is accepted");
    for &(level, node, _) in &whole.entries[1..] {
        let exclude = excluded(node, 32);
        let include = crossing(&case.profile, level as usize, node);
        let mut without = case.request();
        without.exclude = &exclude;
        let mut alone = case.request();
        alone.include = &include;
        for (request, kept) in [(without, false), (alone, true)] {
            let which = format!("{node:08X} at {level}, kept: {kept}");
            let tree = build(&request, &which).expect("it is accepted");
            assert_eq!(tree.hops_examined, 3_000);
            for (before, after) in whole.entries.iter().zip(&tree.entries) {
                let ruled_out = before.0 == level && (before.1 == node) != kept;
                let expected = if ruled_out { None } else { before.2 };
                let dearer = before.0 < level && after.2.is_none_or(|cost| Some(cost) >= expected);
                assert!(
                    dearer || after.2 == expected,
                    "{which}: {before:?} {after:?}"
                );
            }
        }
    }
}

#[test]
fn a_length_is_more_than_32_bits() {
    // Zero pages that are never looked at take no memory.
    let w = profile_w();
    let long = vec![0; (1 << 32) + 8];
    let mut request = ask(&w, &long);
    assert_eq!(build(&request, "4 GiB to include"), Err((22, 0)));
    (request.include, request.exclude) = (&SHORT, &long);
    assert_eq!(build(&request, "4 GiB to exclude"), Err((22, 1)));
}

#[test]
fn a_capacity_is_more_than_32_bits() {
    let (mut level, mut address, mut cost) = ([7; 5], [7; 5], [7; 5]);
    let mut reachable = vec![0; (1 << 32) + 1];
    let mut numbers = [7; 4];
    let number = tests::tree::tree(
        &ask(&profile_w(), &SHORT),
        &mut level,
        &mut address,
        &mut reachable,
        &mut cost,
        &mut numbers,
    );
    assert_eq!((number, numbers), (0, [0, 5, 8, 1]));
    assert_eq!((level, cost), ([0, 1, 1, 2, 2], [14, 4, 11, 2, 3]));
    assert_eq!(
        (address, &reachable[..6]),
        ([S, P, Q, T, U], &[1, 1, 1, 1, 1, 0][..])
    );
}

#[test]
fn inputs_may_lie_at_any_address() {
    let case = generate::largest_request(6);
    let exclude = excluded(9, 32);
    let expected = build(&case.request(), "aligned");
    for offset in 0..16 {
        let mut bytes = vec![0xFF; offset];
        bytes.extend([&case.profile[..], &case.include, &exclude].concat());
        let (profile, lists) = bytes[offset..].split_at(case.profile.len());
        let (include, exclude) = lists.split_at(case.include.len());
        let request = Request {
            profile,
            include,
            exclude,
            ..case.request()
        };
        assert_eq!(build(&request, offset), expected);
    }
}

#[test]
fn only_the_four_numbers_are_stored() {
    for (list, expected) in [
        (&SHORT[..], [7, 0, 5, 8, 1, 7]),
        (&SHORT[..6], [7, 4, 0, 0, 0, 7]),
    ] {
        let mut around = [7; 6];
        let numbers = (&mut around[1..5]).try_into().expect("four numbers");
        let (mut words, mut reachable) = ([[0; 5]; 3], [0; 5]);
        let [level, address, cost] = &mut words;
        tests::tree::tree(
            &ask(&profile_w(), list),
            level,
            address,
            &mut reachable,
            cost,
            numbers,
        );
        assert_eq!(around, expected);
    }
}

#[test]
fn stack_of_at_most_16_kib() {
    let used = |case: &RequestCase| {
        let (mut words, mut reachable) = ([[0; MOST_ENTRIES]; 3], [0; MOST_ENTRIES]);
        let [level, address, cost] = &mut words;
        let (request, mut numbers) = (case.request(), [0; 4]);
        stack::bytes_used(|| {
            tests::tree::tree(&request, level, address, &mut reachable, cost, &mut numbers);
        })
    };
    let mut full = generate::largest_request(4);
    full.exclude = excluded(0xC633_64FF, 32).repeat(128);
    let large = [
        generate::largest_request(4),
        full,
        generate::equal_paths_request(),
    ];
    let generated = (0..1_000).map(generate::request_case);
    let most = large
        .into_iter()
        .chain(generated)
        .map(|case| used(&case))
        .max();
    println!("\ntree: {} bytes of stack", most.unwrap_or(0));
    assert!(most.is_some_and(|bytes| bytes <= 16 * 1024));
}
