//! read_pcrep: the library against the reference and against what messages were
//! made of, on generated ones; every field's values, EROs of every kind and
//! length, capacities, and stack.

use reference::generate::{self, Told};
use tests::by_hand::messages::*;
use tests::by_hand::replies;
use tests::compare::{seeds, Counts, Kinds, Lent};
use tests::lists::verdict;
use tests::metrics::capacities;
use tests::pcrep::{buffers, read, read_pcrep, ReadPcRep};
use tests::stack;

#[test]
fn generated_messages() {
    let mut counts = Counts::default();
    let mut kinds = Kinds::default();
    for seed in seeds(40_000) {
        let case = generate::pcrep_case(seed);
        let which = format!("pcrep_case({seed})");
        let metrics = (
            Lent::new(&case.kinds),
            Lent::new(&case.flags),
            Lent::new(&case.values),
        );
        let fields = ReadPcRep {
            message: &case.message,
            buffers: (Lent::new(&case.addresses), metrics),
        }
        .read(&which);
        counts.add(verdict(&fields));
        match &case.expected {
            Some(Err(told)) => assert_eq!(fields, Err(*told), "{which}"),
            Some(Ok(made_of)) => {
                let addresses = made_of.said.as_ref().map_or(0, Vec::len);
                let lent = [case.kinds.len(), case.flags.len(), case.values.len()];
                let fits = case.addresses.len() >= addresses
                    && lent.iter().all(|&size| size >= made_of.metrics.len());
                match fits {
                    true => assert_eq!(fields.as_ref(), Ok(made_of), "{which}"),
                    false => assert_eq!(fields, Err((34, 0)), "{which}"),
                }
                kinds.add(match (&made_of.said, addresses) {
                    (Err(_), _) => "no path",
                    (_, 0) => "a path of no address",
                    (_, 1..=17) => "a path of up to 17 addresses",
                    _ => "a longer path",
                });
            }
            None => kinds.add("scratched"),
        }
    }
    let numbers = [0, 21, 23, 24, 25, 26, 27, 34, 36, 37, 38, 39, 41];
    counts.cover("read_pcrep, generated", &numbers);
    for number in (23..=27).chain([37, 38]) {
        assert!(counts.places(number) >= 15, "{number}");
    }
    let wanted = [
        "no path",
        "a path of no address",
        "a path of up to 17 addresses",
        "a longer path",
        "scratched",
    ];
    kinds.cover("read_pcrep, generated", &wanted.map(String::from));
}

#[track_caller]
fn told(objects: &[Vec<u8>]) -> Told {
    verdict(&read(
        &message(PCREP, objects),
        format_args!("{objects:02X?}"),
    ))
}

#[test]
fn worked_messages() {
    for (text, fields) in [
        (replies::PATH, replies::spuz()),
        (replies::WRITTEN, replies::spuz()),
        (replies::NONE, replies::none()),
        (replies::NONE_WRITTEN, replies::none()),
    ] {
        let read = read(&hex(text), "worked").expect("accepted");
        assert_eq!(read.request_id, fields.request_id);
        assert_eq!(read.rp_flags, fields.rp_flags);
        assert_eq!((read.said, read.metrics), (fields.said, fields.metrics));
    }
}

/// What is wrong with a subobject, whatever follows; those that are cut stand
/// last.
fn faults() -> Vec<(u32, Vec<u8>)> {
    vec![
        (24, vec![0, 8, 0, 0]),
        (24, vec![5, 8, 0, 0, 0, 0, 0xFB, 0xF1]),
        (24, vec![32, 4, 0xFB, 0xF1]),
        (24, vec![33, 4, 0, 0]),
        (24, vec![0x82, 8, 0, 0]),
        (27, vec![0x81, 8, 1, 2, 3, 4, 32, 0]),
        (27, vec![0x81, 4, 0, 0]),
        (25, vec![1, 0, 0, 0]),
        (25, vec![1, 4, 0, 0]),
        (25, vec![1, 12, 0, 0, 0, 0, 32, 0]),
        (26, vec![1, 8, 1, 2, 3, 4, 31, 0]),
        (26, vec![1, 8, 1, 2, 3, 4, 33, 0]),
        (26, vec![1, 8, 1, 2, 3, 4, 0, 32]),
        (23, vec![1, 8, 0, 0]),
    ]
}

/// Each fault after every number of addresses up to 300, and far inside.
#[test]
fn each_refusal_at_each_offset() {
    let mut counts = Counts::default();
    for (number, wrong) in faults() {
        for before in (0..=300).chain([4_000, 8_100]) {
            let fine = &ero(&vec![9; before])[4..];
            for after in [&[][..], &[0xFF; 8]] {
                if number == 23 && !after.is_empty() {
                    continue;
                }
                let body = [fine, &wrong, after].concat();
                let said = told(&[object(7, 1, 0, &body), rp(1, 0)]);
                assert_eq!(said, (number, 8 * before as u32), "{wrong:02X?}");
                counts.add(said);
            }
        }
    }
    counts.cover(
        "read_pcrep, each refusal at each offset",
        &[23, 24, 25, 26, 27],
    );
    for number in 23..=27 {
        assert!(counts.places(number) >= 300, "{number}");
    }
}

/// Every first and second byte, and every prefix length, of a subobject.
#[test]
fn every_type_length_and_prefix_length() {
    let mut counts = Counts::default();
    for first in 0..=255 {
        for second in 0..=255 {
            let body = [first, second, 1, 2, 3, 4, 32, second];
            let expected = match (first, second) {
                (1, 8) => 0,
                (1, _) => 25,
                (0x81, _) => 27,
                _ => 24,
            };
            let said = told(&[object(7, 1, 0, &body), rp(1, 0)]);
            assert_eq!(said, (expected, 0));
            counts.add(said);
        }
        let body = [1, 8, 1, 2, 3, 4, first, 0];
        let expected = if first == 32 { 0 } else { 26 };
        let said = told(&[object(7, 1, 0, &body), rp(1, 0)]);
        assert_eq!(said, (expected, 0));
        let body = [1, 8, 1, 2, 3, 4, 32, first];
        assert_eq!(told(&[object(7, 1, 0, &body), rp(1, 0)]), (0, 0));
        for number in [expected, 0] {
            counts.add((number, 0));
        }
    }
    counts.cover("read_pcrep, subobjects", &[0, 24, 25, 26, 27]);
}

#[test]
fn paths_of_every_length() {
    for length in (0..=40).chain([128, 129, 1_000, 8_188, 8_189]) {
        let path: Vec<u32> = (0..length).map(|i| 0x0A00_0000 + i).collect();
        let message = message(PCREP, &[rp(1, 0), ero(&path)]);
        let read = read(&message, length).expect("accepted");
        assert_eq!(read.said, Ok(path));
        // One more word than the subobjects take.
        if length < 8_189 {
            let mut longer = longer(&message[16..], &[1, 8, 0, 0]);
            longer.splice(0..0, message[..16].iter().copied());
            let count = longer.len() as u16;
            longer[2..4].copy_from_slice(&count.to_be_bytes());
            let told = tests::pcrep::read(&longer, length);
            assert_eq!(told, Err((23, 8 * length)));
        }
    }
}

/// One of 8,190 addresses leaves no room for an RP.
#[test]
fn the_longest_ero() {
    let whole = message(PCREP, &[ero(&[9; 8_190])]);
    assert_eq!(whole.len(), 65_528);
    assert_eq!(verdict(&read(&whole, "8,190 addresses")), (39, 0));
    let wrong = message(PCREP, &[ero(&[9; 8_190]), object(99, 1, P, &[])]);
    assert_eq!(verdict(&read(&wrong, "8,190 addresses")), (38, 65_528));
}

#[test]
fn every_nature_and_flag() {
    for nature in 0..=255 {
        for high in 0..=255 {
            let body = [nature, high, high, nature];
            let objects = [object(3, 1, 0, &body), rp(nature.into(), high.into())];
            let read = read(&message(PCREP, &objects), nature).expect("accepted");
            assert_eq!(read.said, Err((nature, high >= 0x80)));
            let rp = (u32::from(nature), u32::from(high) & 0x3F);
            assert_eq!((read.request_id, read.rp_flags), rp);
        }
    }
    println!("\nread_pcrep, natures and flags: 65536 cases");
}

#[test]
fn metrics_of_every_kind_and_flags() {
    for first in 0..=255 {
        let all: Vec<_> = (0..=255).map(|second| (second, first, 1)).collect();
        let metrics: Vec<_> = all.iter().map(|&(k, f, v)| metric(k, f, v)).collect();
        let (before, after) = metrics.split_at(usize::from(first));
        let said = [rp(1, 0), no_path(0, false)].concat();
        let objects = [&before.concat()[..], &said, &after.concat()].concat();
        let read = read(&message(PCREP, &[objects]), first).expect("accepted");
        assert_eq!(read.metrics, all);
    }
    println!("\nread_pcrep, kinds and flags: 65536 METRICs in 256 messages");
}

#[test]
fn float_bits() {
    let mut counts = Counts::default();
    let edges = [
        0x7F7F_FFFF,
        0x7F80_0000,
        0x7F80_0001,
        0x7FC0_0000,
        0xFFFF_FFFF,
    ];
    for bits in edges.into_iter().chain((0..32).map(|bit| 1 << bit)) {
        for said in [ero(&[1]), no_path(0, false), object(7, 1, 0, &[0; 4])] {
            for at in 0..4 {
                let bits_at = |i| if i == at { bits } else { 1 };
                let metrics: Vec<_> = (0..4).map(|i| metric(1, B, bits_at(i))).collect();
                let objects = [&metrics[..], &[said.clone(), rp(1, 0)]].concat();
                let form = if said.len() == 8 && said[0] == 7 {
                    (24, 0)
                } else {
                    (0, 0)
                };
                let expected = if bits < 0x7F80_0000 { form } else { (21, 1) };
                assert_eq!(told(&objects), expected, "{bits:08X}");
                counts.add(expected);
            }
        }
    }
    counts.cover("read_pcrep, float bits", &[0, 21, 24]);
}

#[test]
fn every_capacity_around_the_one_needed() {
    let mut counts = Counts::default();
    for addresses in [0, 1, 2, 17, 100usize] {
        for metrics in [0, 1, 2, 17] {
            let path: Vec<u32> = (0..addresses as u32).collect();
            let metric_list = vec![metric(1, 2, 3); metrics];
            for said in [ero(&path), no_path(1, true)] {
                let needed = if said[0] == 7 { addresses } else { 0 };
                let message = message(PCREP, &[&[rp(1, 0), said], &metric_list[..]].concat());
                let around = [needed.saturating_sub(1), needed, needed + 1, 0];
                for (room, [kinds, flags, values]) in around
                    .into_iter()
                    .flat_map(|room| capacities::<3>(metrics).into_iter().map(move |c| (room, c)))
                {
                    let sizes = [room, kinds, flags, values];
                    let case = ReadPcRep {
                        message: &message,
                        buffers: buffers(sizes),
                    };
                    let read = case.read(format_args!("{addresses}, {metrics} into {sizes:?}"));
                    let fits = room >= needed && sizes[1..].iter().all(|&size| size >= metrics);
                    let expected = if fits { (0, 0) } else { (34, 0) };
                    assert_eq!(verdict(&read), expected);
                    counts.add(expected);
                }
            }
        }
    }
    counts.cover("read_pcrep, capacities", &[0, 34]);
}

// What a caller may count on besides the answer.

#[test]
fn a_count_is_more_than_32_bits() {
    // Zero pages that are never looked at take no memory.
    let mut zeros = vec![0; (1 << 32) + 4];
    zeros[..4].copy_from_slice(&[0x20, 4, 0, 4]);
    let mut numbers = [7; 8];
    let number = read_pcrep(&zeros, &mut [], &mut [], &mut [], &mut [], &mut numbers);
    assert_eq!((number, numbers), (36, [0; 8]));
    let message = message(PCREP, &[rp(1, 0), ero(&[9]), metric(1, 2, 3)]);
    let (mut path, mut kinds, mut values) = ([0; 1], [0; 1], [0; 1]);
    let flags = &mut zeros[..1 << 32];
    let number = read_pcrep(
        &message,
        &mut path,
        &mut kinds,
        flags,
        &mut values,
        &mut numbers,
    );
    assert_eq!((number, numbers), (0, [0, 1, 0, 1, 0, 0, 1, 1]));
    assert_eq!((path, kinds, flags[0], values), ([9], [1], 2, [3]));
}

#[test]
fn bytes_may_lie_at_any_address() {
    let message = message(PCREP, &[rp(1, 0), ero(&[1, 2, 3]), metric(1, 2, 3)]);
    let expected = read(&message, "aligned");
    assert!(expected.is_ok());
    for offset in 0..16 {
        let moved = [&vec![0xFF; offset][..], &message].concat();
        assert_eq!(read(&moved[offset..], offset), expected);
    }
}

#[test]
fn only_the_eight_numbers_are_stored() {
    for (objects, number, expected) in [
        (vec![rp(5, 6), ero(&[])], 0, [7, 0, 5, 6, 1, 0, 0, 0, 0, 7]),
        (vec![rp(5, 6)], 41, [7, 0, 0, 0, 0, 0, 0, 0, 0, 7]),
    ] {
        let mut around = [7; 10];
        let numbers = (&mut around[1..9]).try_into().expect("eight numbers");
        let message = message(PCREP, &objects);
        let said = read_pcrep(&message, &mut [], &mut [], &mut [], &mut [], numbers);
        assert_eq!((said, around), (number, expected));
    }
}

#[test]
fn stack_of_at_most_16_kib() {
    let (mut path, mut values) = (vec![0; 9_000], vec![0; 6_000]);
    let (mut kinds, mut flags, mut numbers) = (vec![0; 6_000], vec![0; 6_000], [0; 8]);
    let mut most = 0;
    let mut used = |message: &[u8]| {
        let bytes = stack::bytes_used(|| {
            read_pcrep(
                message,
                &mut path,
                &mut kinds,
                &mut flags,
                &mut values,
                &mut numbers,
            );
        });
        most = most.max(bytes);
    };
    for seed in 0..1_000 {
        used(&generate::pcrep_case(seed).message);
    }
    used(&message(PCREP, &[rp(1, 0), ero(&[9; 8_189])]));
    let metrics = vec![metric(1, 1, 1); 5_450].concat();
    used(&message(PCREP, &[rp(1, 0), ero(&[9; 5]), metrics]));
    println!("\nread_pcrep: {most} bytes of stack");
    assert!(most <= 16 * 1024);
}
