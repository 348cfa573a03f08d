//! Prints PCEP messages, and beside each what this project takes it to say, for
//! `tests/wireshark`: a line `message` with the bytes, then a line for each
//! object's frame and for each field, as the library reads it. PCReqs that the
//! Rust wrapper wrote are taken from standard input, one to a line.

use reference::generate::{self, Random, RequestCase};
use tests::by_hand::desired::subobjects;
use tests::by_hand::messages::*;
use tests::pcrep::{self, write_pcrep};
use tests::pcreq;

const VECTORS: [&str; 7] = [
    include_str!("../vectors/w-request.hex"),
    include_str!("../vectors/w-request-bound.hex"),
    include_str!("../vectors/w-request-exclude.hex"),
    include_str!("../vectors/w-reply-1.hex"),
    include_str!("../vectors/w-reply-2.hex"),
    include_str!("../vectors/w-reply-3.hex"),
    include_str!("../vectors/w-reply-none.hex"),
];

/// Longer ones don't fit the packet that they are put into.
const LONGEST: usize = 60_000;

const EXRS: u8 = 33;

fn main() {
    for text in VECTORS {
        show("typed", &hex(text));
    }
    let written = (0..).filter_map(written).take(60);
    written.for_each(|message| show("written", &message));
    for seed in 0..100 {
        let plain = generate::small_request_case(seed);
        show("made", &made_request(seed, &plain));
        let with_exrs = generate::exrs_round_case(seed).request;
        show("made", &made_request(seed, &with_exrs));
        show("made", &made_reply(seed));
    }
    for line in std::io::stdin().lines() {
        let message = hex(&line.expect("lines of digits"));
        if !is_passed(&message) {
            show("wrapper", &message);
        }
    }
}

/// What the library's writer makes of generated fields, if it is short enough.
fn written(seed: u64) -> Option<Vec<u8>> {
    let case = generate::valid_reply_case(seed);
    let (mut out, mut numbers) = (vec![0; LONGEST], [0; 2]);
    let number = write_pcrep(&case.reply(), &mut out, &mut numbers);
    (number == 0).then(|| out[..numbers[1] as usize].to_vec())
}

/// A PCReq that is right in all that Wireshark looks at too, so it has no bytes
/// that are only skipped: objects in any order, some twice, with TLVs.
fn made_request(seed: u64, case: &RequestCase) -> Vec<u8> {
    let random = &mut Random::new(seed, 112);
    let mut objects = vec![
        rp(random.bits(), random.bits()),
        end_points(case.source, case.destination),
    ];
    if random.chance(2, 3) {
        objects.push(bandwidth(random.bits() % 0x7F80_0000));
    }
    if random.chance(5, 6) {
        objects.push(iro(&case.include));
    }
    if random.chance(5, 6) {
        objects.push(xro(&case.exclude));
    }
    let mut objects = any_order(random, objects);
    if placed(&case.include).any(|(_, piece)| piece[0] == EXRS) {
        objects.push(object(200, 1, 0, &[0; 252])); // see `is_passed`
    }
    message(PCREQ, &objects)
}

/// Wireshark marks a subobject that it doesn't know inside an EXRS from the third
/// byte on, for as many bytes as the EXRS has but two, and takes a message that
/// these pass for malformed.
fn is_passed(message: &[u8]) -> bool {
    let fields = pcreq::read(message, "looked at").expect("what the wrapper writes");
    let [.., at, length, _, _] = fields.numbers.map(|number| number as usize);
    let mut all = placed(&message[at..at + length]).filter(|(_, piece)| piece[0] == EXRS);
    all.any(|(offset, exrs)| {
        placed(&exrs[4..]).any(|(inside, piece)| {
            let known = [1, 32].contains(&(piece[0] & 0x7F));
            !known && at + offset + 4 + inside + exrs.len() > message.len()
        })
    })
}

/// The subobjects of a list, each with its offset.
fn placed(list: &[u8]) -> impl Iterator<Item = (usize, &[u8])> {
    subobjects(list).into_iter().scan(0, |end, piece| {
        *end += piece.len();
        Some((*end - piece.len(), piece))
    })
}

fn made_reply(seed: u64) -> Vec<u8> {
    let random = &mut Random::new(seed, 113);
    let mut objects = vec![rp(random.bits(), random.bits())];
    let length = random.between(0, 17);
    let path = ero(&random.words(length));
    let none = no_path(random.below(2) as u8, random.chance(1, 2));
    match random.below(4) {
        0 => objects.push(none),
        1..=2 => objects.push(path),
        _ => objects.extend([none, path]),
    }
    message(PCREP, &any_order(random, objects))
}

/// The objects with more METRICs and repeats, in any order, with any bits in
/// their headers.
fn any_order(random: &mut Random, mut objects: Vec<Vec<u8>>) -> Vec<Vec<u8>> {
    for index in 0..objects.len() {
        let piece = objects[index].clone();
        // TLVs may follow an RP (here an unknown one) and a NO-PATH.
        if piece[0] == 2 && random.chance(1, 3) {
            objects[index] = longer(&piece, &[0x77, 0x77, 0, 4, 1, 2, 3, 4]);
        }
        if piece[0] == 3 && random.chance(1, 3) {
            objects[index] = longer(&piece, &[0, 1, 0, 4, 0, 0, 0, 2]);
        }
        if random.chance(1, 5) {
            objects.push(piece);
        }
    }
    for _ in 0..random.below(4) {
        let (kind, flags, bits) = (random.byte(), random.byte(), random.bits());
        objects.push(metric(kind, flags, bits % 0x7F80_0000));
    }
    for piece in &mut objects {
        piece[1] = piece[1] & 0xF0 | random.byte() & 15;
    }
    if random.chance(1, 3) {
        objects.push(object(200, 1, random.byte() & 13, &[0; 8]));
    }
    for index in (1..objects.len()).rev() {
        objects.swap(index, random.below(index + 1));
    }
    objects
}

fn show(from: &str, message: &[u8]) {
    if message.len() > LONGEST {
        return;
    }
    let digits: String = message.iter().map(|byte| format!("{byte:02x}")).collect();
    println!("message {from} {digits}");
    println!("header 1 {} {}", message[1], message.len());
    let mut rest = &message[4..];
    while !rest.is_empty() {
        let length = usize::from(u16::from_be_bytes([rest[2], rest[3]]));
        let (class, object_type, bits) = (rest[0], rest[1] >> 4, rest[1] & 15);
        println!("object {class} {object_type} {bits} {length}");
        rest = &rest[length..];
    }
    match message[1] {
        PCREQ => show_request(message),
        _ => show_reply(message),
    }
}

fn show_request(message: &[u8]) {
    let fields = pcreq::read(message, "shown").expect("only what is accepted is shown");
    let [request_id, rp_flags, source, destination, bandwidth, _, lists @ ..] = fields.numbers;
    println!("rp {rp_flags:02x} {request_id:08x}");
    println!("ends {source:08x} {destination:08x}");
    println!("bandwidth {bandwidth:08x}");
    show_metrics(&fields.metrics);
    let [at, length, from, count] = lists.map(|number| number as usize);
    show_list("include", &message[at..at + length]);
    show_list("exclude", &message[from..from + count]);
}

fn show_metrics(metrics: &[(u8, u8, u32)]) {
    for (kind, flags, bits) in metrics {
        println!("metric {kind} {flags:02x} {bits:08x}");
    }
}

/// Type, top bit and content, of an EXRS also what is inside; of the types that
/// came with RFC 7897 Wireshark knows no more than where they begin.
fn show_list(name: &str, list: &[u8]) {
    for piece in subobjects(list) {
        let (kind, top, length) = (piece[0] & 0x7F, piece[0] >> 7, piece[1]);
        match kind {
            1 => {
                let address = u32::from_be_bytes([piece[2], piece[3], piece[4], piece[5]]);
                println!(
                    "{name} 1 {top} {length} {address:08x} {} {}",
                    piece[6], piece[7]
                );
            }
            // Wireshark wants 8 bytes for an AS in an XRO or an EXRS; document 01
            // has 4.
            32 if name == "include" => {
                let as_number = u16::from_be_bytes([piece[2], piece[3]]);
                println!("{name} 32 {top} {length} {as_number:04x}");
            }
            EXRS => {
                let reserved = u16::from_be_bytes([piece[2], piece[3]]);
                println!("{name} 33 {top} {length} {reserved:04x}");
                show_list("inside", &piece[4..]);
            }
            _ => println!("{name} {kind}"),
        }
    }
}

fn show_reply(message: &[u8]) {
    let fields = pcrep::read(message, "shown").expect("only what is accepted is shown");
    println!("rp {:02x} {:08x}", fields.rp_flags, fields.request_id);
    match fields.said {
        Ok(addresses) => {
            println!("path {}", addresses.len());
            for address in addresses {
                println!("hop 0 8 {address:08x} 32");
            }
        }
        Err((nature, c_flag)) => println!("no-path {nature} {}", u8::from(c_flag)),
    }
    show_metrics(&fields.metrics);
}
