//! Messages made from a seed: each gets the answer that belongs to the way it
//! was made, every number comes up, and what isn't a result stays as it was.

use crate::common;
use common::replies::{read_into, write_into, Fields};
use reference::generate::{self, PcRepFields, PcReqCase, Told};
use reference::PcReq;
use std::collections::BTreeMap;

const CASES: u64 = 12_000;

/// How often each number came up, and at how many places.
#[derive(Default)]
struct Counts(BTreeMap<u32, BTreeMap<u32, usize>>);

impl Counts {
    fn add(&mut self, (number, place): Told) {
        *self.0.entry(number).or_default().entry(place).or_default() += 1;
    }

    /// The numbers are these, each in ten cases or more; those of objects and
    /// lists at several places.
    fn cover(&self, call: &str, possible: &[u32]) {
        println!("\n{call}");
        for (number, places) in &self.0 {
            let cases: usize = places.values().sum();
            println!("{number:>6} {cases:>8} {:>8}", places.len());
            assert!(cases >= 10, "{call}: {number} came up {cases} times");
            // A writer knows no place but 0.
            let several = matches!(number, 23..=32 | 37 | 38) && call != "write_pcrep";
            assert!(!several || places.len() >= 5, "{call}: places of {number}");
        }
        let found: Vec<u32> = self.0.keys().copied().collect();
        assert_eq!(found, possible, "{call}");
    }
}

/// Number and numbers of a reading of a PCReq, with its METRICs.
fn read_pcreq(case: &PcReqCase) -> (u32, [u32; 11], Vec<(u8, u8, u32)>) {
    let (mut kinds, mut flags) = (case.kinds.clone(), case.flags.clone());
    let (mut values, mut numbers) = (case.values.clone(), [7; 11]);
    let message = &case.message;
    let number = reference::read_pcreq(message, &mut kinds, &mut flags, &mut values, &mut numbers);
    let count = numbers[6] as usize;
    let kept = kinds[count..] == case.kinds[count..]
        && flags[count..] == case.flags[count..]
        && values[count..] == case.values[count..];
    assert!(kept);
    let metric = |i| (kinds[i], flags[i], values[i]);
    (number, numbers, (0..count).map(metric).collect())
}

#[test]
fn pcreqs_read() {
    let mut counts = Counts::default();
    for seed in 0..CASES {
        let case = generate::pcreq_case(seed);
        let (number, numbers, metrics) = read_pcreq(&case);
        counts.add((number, numbers[0]));
        let [place, others @ ..] = numbers;
        match &case.expected {
            Some(Err(told)) => assert_eq!((number, place), *told, "seed {seed}"),
            Some(Ok(fields)) if number == 0 => {
                assert_eq!((others, &metrics), (fields.numbers, &fields.metrics));
            }
            Some(Ok(_)) => assert!(matches!(number, 21..=27 | 34), "seed {seed}: {number}"),
            None => {}
        }
        assert!(number == 0 || others == [0; 10], "seed {seed}");
    }
    let possible: Vec<u32> = [0]
        .into_iter()
        .chain(21..=27)
        .chain([34])
        .chain(36..=40)
        .collect();
    counts.cover("read_pcreq", &possible);
}

/// The calls through a message are those on the request that it carries.
#[test]
fn pcreqs_asked() {
    let mut counts = Counts::default();
    for seed in 0..CASES {
        let case = generate::pcreq_case(seed);
        let request = case.request();
        let asked = PcReq {
            profile: &request.profile,
            ingress: request.ingress,
            message: &case.message,
        };
        let first = |call: &dyn Fn(&mut [u32], &mut [u32; 4]) -> u32| {
            let (mut path, mut numbers) = (request.path.clone(), [7; 4]);
            (call(&mut path, &mut numbers), numbers, path)
        };
        let through = first(&|path, numbers| reference::pcreq_first(&asked, path, numbers));
        counts.add((through.0, through.1[0]));
        match case.expected {
            Some(Err((number, place))) => {
                let refused = (number, [place, 0, 0, 0], request.path.clone());
                assert_eq!(through, refused, "seed {seed}");
            }
            Some(Ok(_)) => {
                let base = request.request();
                let plain = first(&|path, numbers| reference::first(&base, path, numbers));
                assert_eq!(through, plain, "seed {seed}");
            }
            None => {}
        }
    }
    let possible: Vec<u32> = [0, 1]
        .into_iter()
        .chain(10..=32)
        .chain([34])
        .chain(36..=40)
        .collect();
    counts.cover("pcreq_first", &possible);
}

fn of(fields: &PcRepFields) -> Fields {
    Fields {
        request_id: fields.request_id,
        rp_flags: fields.rp_flags,
        said: fields.said.clone(),
        metrics: fields.metrics.clone(),
    }
}

#[test]
fn pcreps_read() {
    let mut counts = Counts::default();
    for seed in 0..CASES {
        let case = generate::pcrep_case(seed);
        let room = [
            case.addresses.len(),
            case.kinds.len(),
            case.flags.len(),
            case.values.len(),
        ];
        let read = read_into(&case.message, room);
        counts.add(read.as_ref().map_or_else(|&told| told, |_| (0, 0)));
        match &case.expected {
            Some(Err(told)) => assert_eq!(read, Err(*told), "seed {seed}"),
            Some(Ok(fields)) => {
                let addresses = fields.said.as_ref().map_or(0, Vec::len);
                let metrics = fields.metrics.len();
                let fits = room[0] >= addresses && room[1..].iter().all(|&r| r >= metrics);
                let expected = if fits { Ok(of(fields)) } else { Err((34, 0)) };
                assert_eq!(read, expected, "seed {seed}");
            }
            None => {}
        }
    }
    let possible = [0, 21, 23, 24, 25, 26, 27, 34, 36, 37, 38, 39, 41];
    counts.cover("read_pcrep", &possible);
}

#[test]
fn pcreps_written() {
    let mut counts = Counts::default();
    for seed in 0..CASES {
        let case = generate::reply_case(seed);
        let written = write_into(&case.reply(), case.out.len());
        counts.add(written.as_ref().map_or_else(|&told| told, |_| (0, 0)));
    }
    counts.cover("write_pcrep", &[0, 21, 34, 37]);
}

#[test]
fn what_is_written_reads_back() {
    for seed in 0..CASES / 4 {
        let case = generate::valid_reply_case(seed);
        let written = write_into(&case.reply(), case.out.len()).expect("it can be written");
        let read = read_into(&written, [9_000; 4]);
        assert_eq!(read, Ok(of(&case.fields())), "seed {seed}");
    }
}
