//! read_pcreq: the library against the reference and against what messages were
//! made of, on generated ones; every field's values, capacities, and stack.

use reference::generate::{self, PcReqFields, Told};
use tests::by_hand::messages::*;
use tests::by_hand::{B100, S, SHORT, Z};
use tests::compare::{seeds, Counts, Kinds, Lent};
use tests::lists::verdict;
use tests::metrics::{buffers, capacities};
use tests::pcreq::{read, read_pcreq, ReadPcReq};
use tests::stack;

#[test]
fn generated_messages() {
    let mut counts = Counts::default();
    let mut kinds = Kinds::default();
    for seed in seeds(40_000) {
        let case = generate::pcreq_case(seed);
        let which = format!("pcreq_case({seed})");
        let lent = (
            Lent::new(&case.kinds),
            Lent::new(&case.flags),
            Lent::new(&case.values),
        );
        let message = &case.message;
        let fields = ReadPcReq {
            message,
            buffers: lent,
        }
        .read(&which);
        counts.add(verdict(&fields));
        match (&case.expected, &fields) {
            (Some(Err(told)), _) => assert_eq!(fields, Err(*told), "{which}"),
            (Some(Ok(made_of)), Ok(_)) => {
                assert_eq!(fields.as_ref(), Ok(made_of), "{which}");
                kinds.add(bound_kind(made_of));
                // The lists lie where it says.
                let [.., at, length, from, count] = made_of.numbers.map(|n| n as usize);
                assert_eq!(message[at..at + length], case.request().include);
                assert_eq!(message[from..from + count], case.request().exclude);
            }
            (Some(Ok(_)), Err((21..=27 | 34, _))) => kinds.add("frame right, content refused"),
            (Some(Ok(_)), Err(told)) => panic!("{which}: {told:?}"),
            (None, _) => kinds.add("scratched"),
        }
    }
    let after: Vec<u32> = (21..=27).chain([34]).chain(36..=40).collect();
    counts.cover("read_pcreq, generated", &[&[0], &after[..]].concat());
    for number in (24..=27).chain([37, 38]) {
        assert!(counts.places(number) >= 15, "{number}");
    }
    let bounds = ["never", "first", "second", "third"];
    let wanted = bounds.map(|which| format!("B set {which}"));
    kinds.cover("read_pcreq, generated", &wanted);
}

/// Which METRIC is the bound.
fn bound_kind(fields: &PcReqFields) -> String {
    let place = fields.metrics.iter().position(|metric| metric.1 & B != 0);
    let which = match place {
        None => "never",
        Some(0) => "first",
        Some(1) => "second",
        Some(_) => "third",
    };
    format!("B set {which}")
}

fn with(more: &[Vec<u8>]) -> Vec<u8> {
    message(PCREQ, &[&[rp(1, 0), end_points(S, Z)], more].concat())
}

#[track_caller]
fn fields(more: &[Vec<u8>]) -> Result<PcReqFields, Told> {
    read(&with(more), format_args!("{more:02X?}"))
}

#[test]
fn worked_message() {
    let whole = message(
        PCREQ,
        &[
            rp(0x1234_5678, 0x2A),
            end_points(S, Z),
            bandwidth(B100),
            metric(2, B, 0x4160_0000),
            metric(3, C, 0x4040_0000),
            iro(&SHORT),
            xro(&[0x01, 0x08, 0xC0, 0x00, 0x02, 0x0C, 0x20, 0x01]),
        ],
    );
    let expected = PcReqFields {
        numbers: [0x1234_5678, 0x2A, S, Z, B100, 2, 64, 8, 80, 8],
        metrics: vec![(2, B, 0x4160_0000), (3, C, 0x4040_0000)],
    };
    assert_eq!(read(&whole, "worked"), Ok(expected));
}

#[test]
fn every_kind_and_flags_of_a_metric() {
    for first in 0..=255 {
        let all: Vec<_> = (0..=255).map(|second| (first, second, 7)).collect();
        let objects: Vec<_> = all.iter().map(|&(k, f, v)| metric(k, f, v)).collect();
        let read = fields(&objects).expect("accepted");
        assert_eq!(read.metrics, all);
    }
    println!("\nread_pcreq, kinds and flags: 65536 METRICs in 256 messages");
}

/// Around 7F800000, and each single bit; as bandwidth and in each of three
/// METRICs, B set in it or in another or in none.
#[test]
fn float_bits() {
    let mut counts = Counts::default();
    let edges = [
        0,
        0x7F7F_FFFE,
        0x7F7F_FFFF,
        0x7F80_0000,
        0x7F80_0001,
        0x7FC0_0000,
        0x7FFF_FFFF,
        0x8000_0001,
        0xFF7F_FFFF,
        0xFF80_0000,
        0xFFC0_0000,
        0xFFFF_FFFF,
    ];
    let singles = (0..32).map(|bit| 1 << bit);
    for bits in edges.into_iter().chain(singles) {
        let fine = bits < 0x7F80_0000;
        let told = |place| if fine { (0, 0) } else { (21, place) };
        let said = verdict(&fields(&[bandwidth(bits)]));
        assert_eq!(said, told(0), "{bits:08X}");
        counts.add(said);
        for at in 0..3 {
            for b_at in 0..4 {
                let flags = |i| if i == b_at { B } else { C };
                let bits_at = |i| if i == at { bits } else { 5 };
                let metrics: Vec<_> = (0..3).map(|i| metric(1, flags(i), bits_at(i))).collect();
                let said = verdict(&fields(&metrics));
                assert_eq!(said, told(1), "{bits:08X}");
                counts.add(said);
                let both = [&metrics[..], &[bandwidth(u32::MAX)]].concat();
                assert_eq!(verdict(&fields(&both)), (21, 0), "{bits:08X}");
            }
        }
    }
    counts.cover("read_pcreq, float bits", &[0, 21]);
}

#[test]
fn every_flag_of_an_rp_and_every_bit_of_the_numbers() {
    for bit in 0..32 {
        let one = 1 << bit;
        for flags in [one, !one] {
            let whole = message(PCREQ, &[rp(one, flags), end_points(!one, one)]);
            let read = read(&whole, format_args!("bit {bit}")).expect("accepted");
            assert_eq!(read.numbers[..4], [one, flags & 0x3F, !one, one]);
        }
        if bit < 30 {
            let read = fields(&[bandwidth(one)]).expect("accepted");
            assert_eq!(read.numbers[4], one);
            let read = fields(&[metric(0, 0, one)]).expect("accepted");
            assert_eq!(read.metrics, [(0, 0, one)]);
        }
    }
}

#[test]
fn every_capacity_around_the_one_needed() {
    let mut counts = Counts::default();
    for needed in [0, 1, 2, 3, 17, 100] {
        let all: Vec<_> = (0..needed).map(|i| (i as u8, 200, i as u32)).collect();
        let objects: Vec<_> = all.iter().map(|&(k, f, v)| metric(k, f, v)).collect();
        let message = with(&objects);
        for sizes in capacities::<3>(needed) {
            let buffers = buffers(sizes);
            let case = ReadPcReq {
                message: &message,
                buffers,
            };
            let read = case.read(format_args!("{needed} METRICs into {sizes:?}"));
            let fits = sizes.iter().all(|&size| size >= needed);
            let expected = if fits { Ok(&all) } else { Err((34, 0)) };
            assert_eq!(read.as_ref().map(|f| &f.metrics).map_err(|&e| e), expected);
            counts.add(verdict(&read));
        }
        // Anything else wrong goes first.
        let wrong = with(&[&objects[..], &[iro(&[0; 4])]].concat());
        let case = ReadPcReq {
            message: &wrong,
            buffers: buffers([0; 3]),
        };
        assert_eq!(case.read("wrong in form"), Err((24, 0)));
    }
    counts.cover("read_pcreq, capacities", &[0, 34]);
}

/// As many METRICs as a message can hold.
#[test]
fn the_most_metrics() {
    let objects: Vec<_> = (0..5_458u32).map(|i| metric(i as u8, B, i)).collect();
    let read = fields(&objects).expect("accepted");
    assert_eq!(read.metrics.len(), 5_458);
    assert_eq!(read.metrics[5_457], (5_457u32 as u8, B, 5_457));
}

// What a caller may count on besides the answer.

#[test]
fn a_count_is_more_than_32_bits() {
    // Zero pages that are never looked at take no memory.
    let mut zeros = vec![0; (1 << 32) + 4];
    zeros[..4].copy_from_slice(&[0x20, 3, 0, 4]);
    let mut numbers = [7; 11];
    let number = read_pcreq(&zeros, &mut [], &mut [], &mut [], &mut numbers);
    assert_eq!((number, numbers[0]), (36, 0));
    let message = with(&[metric(1, 2, 3)]);
    let (mut flags, mut values) = ([0; 1], [0; 1]);
    let kinds = &mut zeros[..1 << 32];
    let number = read_pcreq(&message, kinds, &mut flags, &mut values, &mut numbers);
    assert_eq!((number, numbers[6]), (0, 1));
    assert_eq!((kinds[0], flags, values), (1, [2], [3]));
}

#[test]
fn bytes_may_lie_at_any_address() {
    let message = with(&[iro(&SHORT), metric(1, 2, 3), bandwidth(B100)]);
    let expected = read(&message, "aligned");
    assert!(expected.is_ok());
    for offset in 0..16 {
        let moved = [&vec![0xFF; offset][..], &message].concat();
        assert_eq!(read(&moved[offset..], offset), expected);
    }
}

#[test]
fn only_the_eleven_numbers_are_stored() {
    for (more, expected) in [(vec![], 0), (vec![bandwidth(u32::MAX)], 21)] {
        let mut around = [7; 13];
        let numbers = (&mut around[1..12]).try_into().expect("eleven numbers");
        let number = read_pcreq(&with(&more), &mut [], &mut [], &mut [], numbers);
        assert_eq!((number, around[0], around[12]), (expected, 7, 7));
    }
}

#[test]
fn stack_of_at_most_16_kib() {
    let mut most = 0;
    let mut used = |message: &[u8]| {
        let (mut kinds, mut flags) = ([0; 5_460], [0; 5_460]);
        let (mut values, mut numbers) = ([0; 5_460], [0; 11]);
        let bytes = stack::bytes_used(|| {
            read_pcreq(message, &mut kinds, &mut flags, &mut values, &mut numbers);
        });
        most = most.max(bytes);
    };
    for seed in 0..1_000 {
        used(&generate::pcreq_case(seed).message);
    }
    let full = [32, 4, 0, 9].repeat(256);
    used(&with(&[iro(&full), xro(&full)]));
    used(&with(&vec![metric(1, 1, 1); 5_458]));
    println!("\nread_pcreq: {most} bytes of stack");
    assert!(most <= 16 * 1024);
}
