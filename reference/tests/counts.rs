//! How often each number comes up for each call over generated cases. Every
//! number that can come up does, and no other.

use reference::generate::{self, NextCase, RequestCase};
use std::collections::BTreeMap;

type Counts = BTreeMap<u32, usize>;

const CASES: u64 = 12_000;
const EXRS_CASES: u64 = 6_000;

fn requests() -> impl Iterator<Item = RequestCase> {
    let exrs = (0..EXRS_CASES).map(|seed| generate::exrs_next_case(seed).request);
    (0..CASES).map(generate::request_case).chain(exrs)
}

fn nexts() -> impl Iterator<Item = NextCase> {
    let exrs = (0..EXRS_CASES).map(generate::exrs_next_case);
    (0..CASES).map(generate::next_case).chain(exrs)
}

fn check_profile_counts() -> Counts {
    let mut counts = Counts::new();
    for seed in 0..CASES {
        let number = reference::check_profile(&generate::profile_case(seed), &mut [0]);
        *counts.entry(number).or_default() += 1;
    }
    counts
}

fn read_include_counts() -> Counts {
    let mut counts = Counts::new();
    let exrs = (0..EXRS_CASES).map(generate::exrs_include_case);
    for mut case in (0..CASES).map(generate::include_case).chain(exrs) {
        let number = reference::read_include(
            &case.profile,
            case.ingress,
            &case.include,
            &mut case.domains,
            &mut case.pinned,
            &mut case.pins,
            &mut case.exrs_counts,
            &mut case.exrs,
            &mut [0; 3],
        );
        *counts.entry(number).or_default() += 1;
    }
    counts
}

fn write_list_counts() -> Counts {
    let mut counts = Counts::new();
    let exrs = (0..EXRS_CASES).map(generate::exrs_write_case);
    for mut case in (0..CASES).map(generate::write_case).chain(exrs) {
        let number = reference::write_list(
            &case.profile,
            &case.domains,
            &case.pinned,
            &case.pins,
            &case.exrs_counts,
            &case.exrs,
            &mut case.out,
            &mut [0; 2],
        );
        *counts.entry(number).or_default() += 1;
    }
    counts
}

fn tree_counts() -> Counts {
    let mut counts = Counts::new();
    for case in requests() {
        let (mut level, mut address) = (case.level.clone(), case.address.clone());
        let (mut reachable, mut cost) = (case.reachable.clone(), case.cost.clone());
        let number = reference::tree(
            &case.request(),
            &mut level,
            &mut address,
            &mut reachable,
            &mut cost,
            &mut [0; 4],
        );
        *counts.entry(number).or_default() += 1;
    }
    counts
}

fn first_counts() -> Counts {
    let mut counts = Counts::new();
    for case in requests() {
        let number = reference::first(&case.request(), &mut case.path.clone(), &mut [0; 4]);
        *counts.entry(number).or_default() += 1;
    }
    counts
}

fn next_counts() -> Counts {
    let mut counts = Counts::new();
    for case in nexts() {
        let request = case.request.request();
        let number = reference::next(&request, &case.given, &mut case.path.clone(), &mut [0; 4]);
        *counts.entry(number).or_default() += 1;
    }
    counts
}

/// The numbers a call can give, by document 01's table and its inputs.
fn possible(call: &str) -> Vec<u32> {
    let profile = 10..=19;
    let mut numbers: Vec<u32> = vec![0];
    match call {
        "check_profile" => numbers.extend(profile),
        "read_include" => numbers.extend((10..=20).chain(22..=32).chain([34, 42])),
        "write_list" => numbers.extend(profile.chain([34, 35])),
        "tree" => numbers.extend((10..=32).chain([34, 42])),
        "first" => numbers.extend([1].into_iter().chain(10..=32).chain([34, 42])),
        _ => numbers.extend([2].into_iter().chain(10..=34).chain([42])),
    }
    numbers
}

fn table(columns: &[(&str, Counts)]) -> String {
    let mut text = format!("{:>6}", "number");
    for (call, _) in columns {
        text += &format!("{call:>15}");
    }
    for number in [0, 1, 2].into_iter().chain(10..=35).chain([42]) {
        text += &format!("\n{number:>6}");
        for (_, counts) in columns {
            let count = counts
                .get(&number)
                .map_or("-".to_string(), usize::to_string);
            text += &format!("{count:>15}");
        }
    }
    text
}

#[test]
fn every_number_that_can_come_up_does() {
    let columns = [
        ("check_profile", check_profile_counts()),
        ("read_include", read_include_counts()),
        ("write_list", write_list_counts()),
        ("tree", tree_counts()),
        ("first", first_counts()),
        ("next", next_counts()),
    ];
    println!("\n{CASES} cases for each call, and {EXRS_CASES} with EXRS but for the first");
    println!("{}", table(&columns));
    for (call, counts) in &columns {
        let found: Vec<u32> = counts.keys().copied().collect();
        assert_eq!(found, possible(call), "{call}");
        for (number, count) in counts {
            assert!(*count >= 10, "{call} gave {number} only {count} times");
        }
    }
}

/// Numbers whose place tells two inputs apart come up for both.
#[test]
fn both_places_of_21_and_22_come_up() {
    let mut seen: BTreeMap<(u32, u32), usize> = BTreeMap::new();
    for case in requests() {
        let mut numbers = [0; 4];
        let number = reference::first(&case.request(), &mut case.path.clone(), &mut numbers);
        *seen.entry((number, numbers[0])).or_default() += 1;
    }
    for wanted in [(21, 0), (21, 1), (22, 0), (22, 1)] {
        assert!(seen.contains_key(&wanted), "{wanted:?}");
    }
    for number in (23..=32).chain([42]) {
        let offsets = seen.keys().filter(|(n, _)| *n == number).count();
        println!("{number}: {offsets} different offsets");
        assert!(offsets >= 8, "{number} at {offsets} offsets");
    }
}
