//! What is written is read back as the same sequence.

use crate::common;
use reference::generate;

#[test]
fn a_written_list_reads_back() {
    let (mut constrained, mut longest) = (0, 0);
    let (mut with_exrs, mut full) = (0, 0);
    let plain = (0..5_000).map(|seed| (seed, generate::valid_write_case(seed)));
    let exrs = (0..5_000).map(|seed| (seed, generate::valid_exrs_write_case(seed)));
    for (seed, mut case) in plain.chain(exrs) {
        let mut numbers = [7; 2];
        let before = case.out.clone();
        let number = reference::write_list(
            &case.profile,
            &case.domains,
            &case.pinned,
            &case.pins,
            &case.exrs_counts,
            &case.exrs,
            &mut case.out,
            &mut numbers,
        );
        assert_eq!((number, numbers[0]), (0, 0), "seed {seed}");
        let length = numbers[1] as usize;
        assert_eq!(case.out[length..], before[length..], "seed {seed}");
        let mut rest = &case.exrs[..];
        let mut expected = Vec::new();
        for i in 0..case.domains.len() {
            let (own, after) = rest.split_at(case.exrs_counts[i] as usize);
            let entry = (case.pinned[i] == 1).then_some(case.pins[i]);
            expected.push((case.domains[i], entry, own.to_vec()));
            rest = after;
        }
        let read = common::read(&case.profile, case.domains[0], &case.out[..length]);
        assert_eq!(read, Ok(expected), "seed {seed}");
        constrained += case.pinned.iter().filter(|&&mark| mark == 1).count();
        longest = longest.max(case.domains.len());
        with_exrs += usize::from(!case.exrs.is_empty());
        full += usize::from(length == 1_024);
    }
    println!("{with_exrs} with EXRS, {full} of 1,024 bytes");
    assert!(constrained > 1000, "{constrained}");
    assert!(with_exrs > 4_000 && full > 300, "{with_exrs} {full}");
    assert_eq!(longest, 16);
}
