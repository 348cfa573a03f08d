//! write_pcrep: the library against the reference on generated fields; what it
//! writes against bytes made here and read back by read_pcrep; paths of every
//! length and the longest messages.

use reference::generate::{self, ReplyCase};
use reference::Reply;
use tests::by_hand::messages::hex;
use tests::by_hand::replies;
use tests::compare::{seeds, Counts, Kinds, Lent};
use tests::lists::verdict;
use tests::pcrep::{expected, read, write, WritePcRep, BASE};
use tests::writing::old_bytes;

/// What must be answered, by document 02's order.
fn verdict_of(case: &ReplyCase) -> (u32, u32) {
    let counts = [case.kinds.len(), case.flags.len(), case.values.len()];
    let said = match case.found {
        true => 4 + 8 * case.addresses.len(),
        false => 8,
    };
    let length = 16 + said + 12 * counts[0];
    if counts != [counts[0]; 3] || length > 65_535 {
        (37, 0)
    } else if case.values.iter().any(|&bits| bits >= 0x7F80_0000) {
        (21, 1)
    } else if case.out.len() < length {
        (34, 0)
    } else {
        (0, 0)
    }
}

#[test]
fn generated_fields() {
    let mut counts = Counts::default();
    let mut kinds = Kinds::default();
    for seed in seeds(30_000) {
        let case = generate::reply_case(seed);
        let which = format!("reply_case({seed})");
        let written = WritePcRep {
            reply: case.reply(),
            out: Lent::new(&case.out),
        }
        .write(&which);
        assert_eq!(verdict(&written), verdict_of(&case), "{which}");
        counts.add(verdict(&written));
        kinds.add(match &written {
            Ok(message) if message.len() == case.out.len() => "capacity exact",
            Ok(_) => "capacity more",
            Err((34, _)) if case.out.is_empty() => "capacity 0",
            Err((34, _)) => "capacity short",
            Err((21, _)) => "a METRIC out of range",
            Err(_) if case.kinds.len() != case.values.len() => "counts of METRICs differ",
            Err(_) if case.flags.len() != case.values.len() => "counts of METRICs differ",
            Err(_) => "too long",
        });
        if let Ok(message) = written {
            assert_eq!(message, expected(&case.fields()), "{which}");
        }
    }
    counts.cover("write_pcrep, generated", &[0, 21, 34, 37]);
    let wanted = [
        "capacity exact",
        "capacity more",
        "capacity 0",
        "capacity short",
        "a METRIC out of range",
        "counts of METRICs differ",
        "too long",
    ];
    kinds.cover("write_pcrep, generated", &wanted.map(String::from));
}

/// The round trip: read_pcrep gives back the fields. Then into exactly as many
/// bytes, and into one less.
#[test]
fn what_is_written_reads_back() {
    let mut kinds = Kinds::default();
    for seed in seeds(15_000) {
        let case = generate::valid_reply_case(seed);
        let which = format!("valid_reply_case({seed})");
        let written = WritePcRep {
            reply: case.reply(),
            out: Lent::new(&case.out),
        }
        .write(&which);
        let written = written.unwrap_or_else(|told| panic!("{which}: {told:?}"));
        assert_eq!(read(&written, &which), Ok(case.fields()), "{which}");
        for (capacity, expected) in [
            (written.len(), Ok(written.clone())),
            (written.len() - 1, Err((34, 0))),
        ] {
            let out = old_bytes(capacity);
            let reply = case.reply();
            assert_eq!(WritePcRep { reply, out }.write(&which), expected, "{which}");
        }
        kinds.add(format!("{} METRICs", case.values.len()));
        kinds.add(match case.found {
            true => "a path",
            false => "none",
        });
    }
    let wanted = [
        "0 METRICs",
        "1 METRICs",
        "2 METRICs",
        "7 METRICs",
        "a path",
        "none",
    ];
    kinds.cover("write_pcrep, read back", &wanted.map(String::from));
}

#[test]
fn worked_messages() {
    for (text, fields) in [
        (replies::WRITTEN, replies::spuz()),
        (replies::NONE_WRITTEN, replies::none()),
    ] {
        let written = fields.reply(|reply| write(reply, "worked"));
        assert_eq!(written, Ok(hex(text)));
    }
}

/// Paths of these lengths; up to 8,189 addresses fit a message.
#[test]
fn paths_of_every_length() {
    let path: Vec<u32> = (0..8_300).map(|i| 0xC000_0200 + i).collect();
    for length in (0..=40).chain([17, 1_000, 8_188, 8_189, 8_190, 8_191, 8_300]) {
        let reply = Reply {
            addresses: &path[..length],
            ..BASE
        };
        let written = write(&reply, length);
        if length > 8_189 {
            assert_eq!(written, Err((37, 0)), "{length}");
            continue;
        }
        let written = written.expect("written");
        assert_eq!(written.len(), 20 + 8 * length);
        let back = read(&written, length).expect("read");
        assert_eq!(back.said, Ok(path[..length].to_vec()));
    }
}

/// Addresses and METRICs around the longest message, 65,535 bytes.
#[test]
fn the_longest_messages() {
    let mut counts = Counts::default();
    let (path, bytes, values) = (vec![9; 8_300], vec![1; 5_500], vec![7; 5_500]);
    for metrics in (0..5_462).step_by(13).chain(5_450..5_470) {
        let left = 65_535usize.saturating_sub(20 + 12 * metrics) / 8;
        for addresses in left.saturating_sub(1)..=left + 2 {
            for found in [true, false] {
                let case = ReplyCase {
                    request_id: 1,
                    rp_flags: 0,
                    found,
                    addresses: path[..addresses].to_vec(),
                    nature: 1,
                    c_flag: true,
                    kinds: bytes[..metrics].to_vec(),
                    flags: bytes[..metrics].to_vec(),
                    values: values[..metrics].to_vec(),
                    out: vec![0; 65_536],
                };
                let which = format!("{found}, {addresses} and {metrics}");
                let written = write(&case.reply(), &which);
                assert_eq!(verdict(&written), verdict_of(&case), "{which}");
                counts.add(verdict(&written));
                if let Ok(message) = written {
                    assert_eq!(message, expected(&case.fields()), "{which}");
                }
            }
        }
    }
    counts.cover("write_pcrep, the longest", &[0, 37]);
}
