//! The limit of a hop's cost at every call that takes a profile, the greatest
//! total, and paths whose totals differ by less than their floats can tell.

use reference::generate::{self, Random};
use tests::by_hand::{file, hop, B100, S};
use tests::compare::{seeds, Counts};
use tests::every_call::{verdicts, CALLS};
use tests::floats::nearest;
use tests::paths::{find_first, find_next, Path};
use tests::rows::{fan, row, row_path};
use tests::tree::{build, Entry};
use tests::wide::{along, bounded, change_costs, tell, GREATEST, MOST};

// The limit.

const WITHIN: [u32; 7] = [0, 1, 65_535, 65_536, 1_048_560, 16_777_214, 16_777_215];

const OVER: [u32; 9] = [
    16_777_216,
    16_777_217,
    0x0100_FFFF,
    0x01FF_FFFF,
    0x0200_0000,
    0x7FFF_FFFF,
    0x8000_0000,
    0xFF00_0000,
    u32::MAX,
];

/// Every call's number and place on a row of these costs.
#[track_caller]
fn verdicts_on(costs: &[u32]) -> [(u32, u32); CALLS] {
    let (profile, include) = row(costs);
    let request = along(&profile, &include, costs.len());
    verdicts(&request, &format!("{costs:?}"))
}

/// One cost around the limit at each record, among others that are low or as high
/// as can be: told by every call, at the record's place.
#[test]
fn the_limit_at_every_call_and_record() {
    let mut counts = Counts::default();
    for domains in [1, 2, 3, 16] {
        for at in 0..domains {
            for other in [0, MOST] {
                for cost in WITHIN.into_iter().chain(OVER) {
                    let mut costs = vec![other; domains];
                    costs[at] = cost;
                    let expected = match WITHIN.contains(&cost) {
                        true => (0, 0),
                        false => (17, (domains + at) as u32),
                    };
                    let found = verdicts_on(&costs);
                    assert_eq!(found, [expected; CALLS], "{costs:?}");
                    found.into_iter().for_each(|verdict| counts.add(verdict));
                }
            }
        }
    }
    counts.cover("wide costs, the limit", &[0, 17]);
    assert!(counts.places(17) >= 20);
}

/// Each bit alone, with all bits that a cost may have, and missing among them.
#[test]
fn every_bit_of_a_cost() {
    for bit in 0..32 {
        let (one, fits) = (1u32 << bit, bit < 24);
        for cost in [one, one | MOST, one | 1] {
            let expected = if fits { (0, 0) } else { (17, 2 + 1) };
            let found = verdicts_on(&[0, cost]);
            assert_eq!(found, [expected; CALLS], "{cost:08X}");
        }
        assert_eq!(verdicts_on(&[0, MOST & !one]), [(0, 0); CALLS]);
    }
}

/// Of two costs over the limit the first is told, and a cost before the order and
/// the reserved ranges of its record.
#[test]
fn what_is_told_beside_a_cost() {
    let over = [0, MOST + 1, 0, u32::MAX];
    assert_eq!(verdicts_on(&over), [(17, 4 + 1); CALLS]);
    let (profile, include) = row(&[1, 1]);
    let domains = [profile[12..32].to_vec(), profile[32..52].to_vec()];
    for (cost, number) in [(MOST, 18), (MOST + 1, 17)] {
        // The second hop again: out of order.
        let second = hop(1, 1, S + 1, S + 2, cost, B100);
        let hops = [profile[52..72].to_vec(), profile[72..92].to_vec(), second];
        let again = file(0, &domains, &hops);
        let found = verdicts(&along(&again, &include, 2), "a hop again");
        assert_eq!(found, [(number, 4); CALLS]);
    }
    for (cost, number) in [(MOST, 16), (MOST + 1, 17)] {
        let free = hop(1, 1, 0xDF00_0001, S + 2, cost, B100);
        let hops = [profile[52..72].to_vec(), profile[72..92].to_vec(), free];
        let outside = file(0, &domains, &hops);
        let found = verdicts(&along(&outside, &include, 2), "a live node");
        assert_eq!(found, [(number, 4); CALLS]);
    }
}

// The greatest total.

#[test]
fn the_greatest_total() {
    let (profile, include) = row(&[16_777_215; 16]);
    let request = along(&profile, &include, 16);
    let told = tell(&request, "greatest");
    let numbers = [0, 268_435_440, 0x4D7F_FFFF, 1];
    assert_eq!((told.number, told.numbers), (0, numbers));
    let costs = [
        268_435_440,
        251_658_225,
        234_881_010,
        218_103_795,
        201_326_580,
        184_549_365,
        167_772_150,
        150_994_935,
        134_217_720,
        117_440_505,
        100_663_290,
        83_886_075,
        67_108_860,
        50_331_645,
        33_554_430,
        16_777_215,
    ];
    let entries: Vec<Entry> = (0..16)
        .zip(row_path(16))
        .map(|(i, node)| (i, node, Some(costs[i as usize])))
        .collect();
    assert_eq!(told.tree.entries, entries);
    for (bound_bits, number) in [
        (0x4D7F_FFFE, 1),
        (0x4D7F_FFFF, 0),
        (0x4D80_0000, 0),
        (0x7F7F_FFFF, 0),
        (0x4B7F_FFFF, 1),
        (0, 1),
    ] {
        let told = tell(&bounded(request, bound_bits), "greatest, bounded");
        assert_eq!(told.number, number, "{bound_bits:08X}");
    }
}

/// Some 2^58 paths of the greatest total. Then one hop costs 1 less, which the
/// float doesn't show: only the paths over it are listed.
#[test]
fn the_most_equal_paths_at_the_limit() {
    let mut case = generate::equal_paths_request();
    change_costs(&mut case.profile, |_, _| MOST);
    let narrow = generate::equal_paths_request();
    let first = find_first(&case.request(), "all at the limit");
    let path = find_first(&narrow.request(), "all at 1")
        .expect("it has a path")
        .0;
    assert_eq!(first, Ok((path.clone(), GREATEST, 1)));
    let random = &mut Random::new(1, 118);
    let hops = (case.profile.len() - 12 - 20 * 16) / 20;
    assert_eq!(hops, 3_000);
    for _ in 0..40 {
        let cheaper = random.below(hops);
        let mut changed = case.clone();
        change_costs(&mut changed.profile, |index, _| {
            MOST - u32::from(index == cheaper)
        });
        let record = &case.profile[12 + 20 * (16 + cheaper)..][..20];
        let word = |at: usize| u32::from_be_bytes(record[at..at + 4].try_into().expect("4 bytes"));
        let (step, u, v) = (usize::from(record[1]), word(4), word(8));
        let request = changed.request();
        let which = &format!("hop {cheaper} is cheaper");
        let mut given = vec![0; 17];
        for _ in 0..5 {
            let found = find_next(&request, &given, which);
            let (path, total, _) = found.expect("there are more");
            assert_eq!(total, 268_435_439, "{which}");
            assert_eq!((path[step], path[step + 1]), (u, v), "{which}");
            given = path;
        }
        // A bound at the float of both totals keeps both.
        let found = find_first(&bounded(request, 0x4D7F_FFFF), which);
        assert_eq!(found.map(|path| path.1), Ok(268_435_439));
        let found = find_first(&bounded(request, 0x4D7F_FFFE), which);
        assert_eq!(found, Err((1, 0)), "{which}");
    }
}

// Totals that differ by less than their floats can tell.

/// The shortest paths, to the end.
#[track_caller]
fn listed(request: &reference::Request, which: &str) -> Vec<Path> {
    let mut paths: Vec<Path> = Vec::new();
    let mut found = find_first(request, which);
    while let Ok(path) = found {
        found = find_next(request, &path.0, which);
        paths.push(path);
    }
    assert_eq!(found, Err((2, 0)), "{which}");
    paths
}

/// Five ways of 33,554,399 up to 33,554,401, which all have the float 4BFFFFF0,
/// 33,554,400.
#[test]
fn three_totals_of_one_float() {
    let more = [(0, 1), (0, 0), (1, 1), (0, 0), (1, 0)];
    let (profile, include) = fan(33_554_399, &more);
    let request = along(&profile, &include, 16);
    let (mut path, mut numbers) = ([0; 17], [7; 4]);
    tests::paths::first(&request, &mut path, &mut numbers);
    assert_eq!(numbers, [0, 33_554_399, 0x4BFF_FFF0, 1]);
    let nodes: Vec<u32> = listed(&request, "five ways")
        .iter()
        .map(|(path, ..)| path[1])
        .collect();
    assert_eq!(nodes, [S + 101, S + 103]);
}

/// Up to 16 ways whose totals differ by at most 4, in each range between two
/// powers of two: only those of the least total are listed.
#[test]
fn ways_of_one_float_and_other_totals() {
    let (mut requests, mut hidden, mut tied) = (0, 0, 0);
    for power in 24..28u32 {
        let unit = 1u32 << (power - 23);
        for seed in seeds(300) {
            let random = &mut Random::new(seed, 119 + u64::from(power));
            let float = (1u32 << power) + random.below(8_388_608) as u32 * unit;
            let base = GREATEST.min(float + random.below(unit as usize) as u32) - 8;
            let ways = random.between(2, 16);
            let mut step = || (random.below(3) as u32, random.below(3) as u32);
            let more: Vec<(u32, u32)> = (0..ways).map(|_| step()).collect();
            let totals: Vec<u32> = more.iter().map(|(into, out)| base + into + out).collect();
            let least = *totals.iter().min().expect("there are ways");

            let (profile, include) = fan(base, &more);
            let request = along(&profile, &include, 16);
            let which = format!("2^{power}, seed {seed}: {base} and {more:?}");
            let shortest = (0..).zip(&totals).filter(|(_, &total)| total == least);
            let expected: Vec<Path> = shortest
                .map(|(i, _)| {
                    let mut path = row_path(16);
                    path[1] = S + 100 + i;
                    (path, least, 1)
                })
                .collect();
            let found = listed(&request, &which);
            assert_eq!(found, expected, "{which}");
            let tree = build(&request, &which).expect("it is accepted");
            assert_eq!(tree.entries[0].2, Some(least), "{which}");
            // What is left to pay is the same after each node but for `out`.
            let rest = |i: usize| tree.entries[1 + i].2.map(|cost| cost - more[i].1);
            assert!((0..ways).all(|i| rest(i) == rest(0)), "{which}");

            let same_float = |&&total: &&u32| total > least && nearest(total) == nearest(least);
            requests += 1;
            hidden += usize::from(totals.iter().filter(same_float).count() > 0);
            tied += usize::from(found.len() > 1);
        }
    }
    println!("\nwide costs, ways of one float: {requests} requests,");
    println!("{hidden} with dearer ways of the least one's float, {tied} ties");
    assert!(requests == 1_200 && hidden >= 600 && tied >= 400);
}
