//! write_list with EXRS: the library against the reference on generated
//! sequences; what is written read back; and lists of 1,024 bytes and more.

use reference::generate::{self, WriteCase};
use tests::by_hand::desired::subobjects;
use tests::compare::{seeds, Counts, Kinds, Lent};
use tests::exrs::{all_inside_kinds, inside_kind};
use tests::lists::{domain_kind, five_domains, read, short_as, verdict};
use tests::writing::{old_bytes, whole_sequence, WriteList};

#[test]
fn generated_sequences() {
    let mut counts = Counts::default();
    let mut kinds = Kinds::default();
    for seed in seeds(26_000) {
        let case = generate::exrs_write_case(seed);
        let which = format_args!("exrs_write_case({seed})");
        let written = WriteList::of(&case, Lent::new(&case.out)).write(which);
        counts.add(verdict(&written));
        kinds.add(match (&written, case.out.len()) {
            (Err((34, _)), 0) => "capacity 0",
            (Err((34, _)), _) => "capacity short",
            (Ok(list), capacity) if list.len() == capacity => "capacity exact",
            (Ok(_), _) => "capacity more",
            (Err((35, _)), _) => refused_kind(&case),
            _ => "profile refused",
        });
        if let Ok(list) = &written {
            if list.len() == 1_024 {
                kinds.add("list of 1,024 bytes");
            }
        }
    }
    for number in [0, 34, 35] {
        println!("EXRS written, {number}: {} cases", counts.cases(number));
        assert!(counts.cases(number) >= 2_000, "{number}");
    }
    let wanted = [
        "capacity 0",
        "capacity short",
        "capacity exact",
        "capacity more",
        "list of 1,024 bytes",
        "profile refused",
        "refused: counts of another number",
        "refused: counts that add up to more",
        "refused: counts that add up to less",
        "refused: EXRS on the first domain",
        "refused: bytes that aren't EXRS of right form",
        "refused: right by another division only",
        "refused: list of 1,028 bytes",
        "refused: list over 1,028 bytes",
    ];
    kinds.cover("EXRS written, generated", &wanted.map(String::from));
}

/// Bytes that are EXRS of right form, each as a reader takes it.
fn are_exrs(bytes: &[u8]) -> bool {
    let mut rest = bytes;
    while !rest.is_empty() {
        let length = rest.get(1).map_or(0, |&length| usize::from(length));
        if length < 8 || length > rest.len() {
            return false;
        }
        let (whole, after) = rest.split_at(length);
        let list = [whole, &short_as(64498)].concat();
        let reading = read(&five_domains(), 0, &list, "bytes to be written");
        if reading != Ok(vec![(0, None, vec![]), (3, None, whole.to_vec())]) {
            return false;
        }
        rest = after;
    }
    true
}

/// Which rule on EXRS a sequence that is 35 breaks.
fn refused_kind(case: &WriteCase) -> &'static str {
    let sum: u64 = case.exrs_counts.iter().map(|&count| u64::from(count)).sum();
    let bytes = case.exrs.len() as u64;
    if case.exrs_counts.len() != case.domains.len() {
        return "refused: counts of another number";
    }
    if sum > bytes {
        return "refused: counts that add up to more";
    }
    if sum < bytes {
        return "refused: counts that add up to less";
    }
    if case.exrs_counts.first().is_some_and(|&count| count > 0) {
        return "refused: EXRS on the first domain";
    }
    if !are_exrs(&case.exrs) {
        return "refused: bytes that aren't EXRS of right form";
    }
    let mut at = 0;
    for &count in &case.exrs_counts {
        let end = at + count as usize;
        if !are_exrs(&case.exrs[at..end]) {
            return "refused: right by another division only";
        }
        at = end;
    }
    let without = WriteCase {
        exrs_counts: vec![0; case.domains.len()],
        exrs: Vec::new(),
        ..case.clone()
    };
    match without.written() {
        Ok(length) if length + case.exrs.len() == 1_028 => "refused: list of 1,028 bytes",
        Ok(length) if length + case.exrs.len() > 1_028 => "refused: list over 1,028 bytes",
        Ok(_) => panic!("nothing is wrong: {case:?}"),
        Err(_) => "refused: the rest of it",
    }
}

/// The round trip: read_include gives back the sequence, its entry constraints,
/// and its EXRS byte for byte.
#[test]
fn what_is_written_reads_back() {
    let mut kinds = Kinds::default();
    let (mut with_exrs, mut full) = (0, 0);
    for seed in seeds(24_000) {
        let case = generate::valid_exrs_write_case(seed);
        let which = format!("valid_exrs_write_case({seed})");
        let list = WriteList::of(&case, Lent::new(&case.out)).write(&which);
        let list = list.unwrap_or_else(|refused| panic!("{which}: {refused:?}"));
        let reading = read(&case.profile, case.domains[0], &list, &which);
        assert_eq!(reading, whole_sequence(&case), "{which}: {list:02X?}");
        kinds.add(domain_kind(case.domains.len()));
        for whole in subobjects(&case.exrs) {
            for piece in subobjects(&whole[4..]) {
                kinds.add(inside_kind(piece));
            }
        }
        with_exrs += usize::from(!case.exrs.is_empty());
        full += usize::from(list.len() == 1_024);
        // Into exactly as many bytes, and into one less.
        let exact = WriteList::of(&case, old_bytes(list.len())).write(&which);
        assert_eq!(exact, Ok(list.clone()), "{which}");
        let short = WriteList::of(&case, old_bytes(list.len() - 1)).write(&which);
        assert_eq!(short, Err((34, 0)), "{which}");
    }
    let domains = (1..=16).map(domain_kind);
    let wanted: Vec<String> = domains.chain(all_inside_kinds()).collect();
    kinds.cover("EXRS written, read back", &wanted);
    println!("{with_exrs} with EXRS, {full} of 1,024 bytes");
    assert!(with_exrs >= 20_000 && full >= 1_000);
}

/// What is read is written back as a list that reads as the same, and that list
/// is written as itself.
#[test]
fn what_is_read_is_written_back() {
    let (mut again, mut longer) = (0, 0);
    for seed in seeds(16_000) {
        let planned = generate::planned_exrs_include(seed);
        let Ok(stops) = planned.expected else {
            continue;
        };
        let case = WriteCase {
            profile: planned.profile,
            domains: stops.iter().map(|stop| stop.0).collect(),
            pinned: stops
                .iter()
                .map(|stop| u8::from(stop.1.is_some()))
                .collect(),
            pins: stops.iter().map(|stop| stop.1.unwrap_or(9)).collect(),
            exrs_counts: stops.iter().map(|stop| stop.2.len() as u32).collect(),
            exrs: stops.iter().flat_map(|stop| stop.2.clone()).collect(),
            out: Vec::new(),
        };
        let which = format!("planned_exrs_include({seed})");
        match WriteList::of(&case, old_bytes(1_024)).write(&which) {
            Ok(list) => {
                let reading = read(&case.profile, case.domains[0], &list, &which);
                assert_eq!(reading, Ok(stops), "{which}");
                again += 1;
            }
            // The ingress and all areas are named too, which may be too much.
            Err(refused) => {
                let bytes = planned.include.len();
                assert_eq!(refused, (35, 0), "{which}");
                assert!(bytes + 28 + 15 * 24 > 1_024, "{which}: {bytes}");
                longer += 1;
            }
        }
    }
    println!("{again} written back, {longer} too long for that");
    assert!(again >= 4_000 && longer >= 50);
}
