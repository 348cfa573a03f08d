//! How long a path is: where the destination stands in it several times, where it
//! is the source, and where an address is what the buffer is filled with; and
//! where the destination is found in a PCReq.

mod common;

use common::*;
use std::net::Ipv4Addr;
use yachayniq::{read_pcreq, write_pcreq, Ask, Path, Pcreq, Profile, Refusal, Request};

/// A profile whose one path is these addresses, a domain for each but the last;
/// its class is 1, so all lie outside the reserved ranges.
fn chain(addresses: &[Ipv4Addr]) -> Vec<u8> {
    let domains = addresses.len() as u16 - 1;
    let count = domains.to_be_bytes();
    let mut profile = [b"DSP\0\x01\x01", &count[..], &count, &[0; 2]].concat();
    for domain in 0..domains {
        profile.extend(as_number(domain).to_be_bytes());
        profile.extend([0; 16]);
    }
    for domain in 0..domains {
        let next = (domain + 1).min(domains - 1);
        profile.extend([domain, next].map(u16::to_be_bytes).concat());
        let at = usize::from(domain);
        profile.extend(addresses[at..at + 2].iter().flat_map(|node| node.octets()));
        profile.extend([0, 0, 0, 1, 0, 0, 0, 0]);
    }
    profile
}

fn as_number(domain: u16) -> u32 {
    1000 + u32::from(domain)
}

/// The path of such a profile is its addresses, through every call.
fn walked(addresses: &[Ipv4Addr]) {
    let profile = Profile::new(chain(addresses)).unwrap();
    let domains = addresses.len() as u16 - 1;
    let named = |domain| [&[32, 4], &as_number(domain).to_be_bytes()[2..]].concat();
    let include = &(1..domains).flat_map(named).collect::<Vec<u8>>();
    let (source, destination) = (addresses[0], *addresses.last().unwrap());
    let request = Request {
        include,
        ..Request::new(source, destination)
    };
    let path = Path {
        addresses: addresses.to_vec(),
        total: domains.into(),
        total_float: domains.into(),
        round: 1,
    };
    let first = Ok(Some(path));
    assert_eq!(profile.first(&request), first);
    assert_eq!(profile.next(&request, addresses), Ok(None));
    let series = profile.series(&request, &[Ask::First, Ask::Next]);
    assert_eq!(series, [first.clone(), Ok(None)]);
    let message = write_pcreq(&Pcreq::of(1, &request)).unwrap();
    assert_eq!(profile.pcreq_first(0, &message), first);
}

#[test]
fn lengths() {
    let destination = Ipv4Addr::new(10, 0, 0, 1);
    let filling = Ipv4Addr::from(!u32::from(destination));
    let zero = Ipv4Addr::UNSPECIFIED;
    let nodes = [
        destination,
        filling,
        zero,
        Ipv4Addr::BROADCAST,
        [10, 0, 0, 2].into(),
    ];
    for length in 2..=17 {
        for node in nodes {
            let mut addresses = vec![node; length];
            walked(&addresses); // source, entry nodes and destination are one
            addresses[length - 1] = destination;
            walked(&addresses);
            addresses[0] = destination;
            walked(&addresses);
        }
    }
    let drawn = &mut Drawn::new(1);
    for _ in 0..2000 {
        let length = 1 + drawn.below(16);
        let mut addresses: Vec<_> = (0..length).map(|_| drawn.one_of(&nodes)).collect();
        addresses.push(destination);
        walked(&addresses);
    }
}

/// The path of the request that the message is read as: it has an address more
/// than the include list means domains.
fn read_first(message: &[u8]) -> Option<Path> {
    let asked = read_pcreq(message).unwrap();
    let path = w().first(&asked.request(0)).unwrap()?;
    let domains = w().read_include(0, asked.include).unwrap();
    assert_eq!(path.addresses.len(), domains.len() + 1);
    Some(path)
}

/// Put to W as it is, a message is answered as the request that it carries is, or
/// refused as its tree is.
fn beside_read(message: &[u8]) -> Result<Option<Path>, (u32, u32)> {
    let numbers = |refusal: Refusal| (refusal.number, refusal.place);
    let first = w().pcreq_first(0, message).map_err(numbers);
    match w().pcreq_tree(0, message).map_err(numbers) {
        Ok(_) => assert_eq!(first, Ok(read_first(message))),
        Err(refused) => assert_eq!(first, Err(refused)),
    }
    first
}

/// Two END-POINTS, in every order of the objects: the first counts.
#[test]
fn any_order() {
    let objects = [
        RP,
        ENDS,
        "0412000C C0000201 C0000216",
        "0A12000C 2004FBF1 2004FBF2",
        "0612000C 00000000 00000000",
    ];
    let mut paths = 0;
    for order in 0..5usize.pow(5) {
        let place = |i| objects[order / 5usize.pow(i) % 5];
        let objects: Vec<&str> = (0..5).map(place).collect();
        paths += usize::from(matches!(beside_read(&pcreq(&objects)), Ok(Some(_))));
    }
    assert!(paths >= 60, "{paths} paths");
}

/// END-POINTS of another type, with P clear, are skipped.
#[test]
fn other_ends() {
    let other = "0420000C 00000000 C0000216";
    let iro = "0A12000C 2004FBF1 2004FBF2";
    let first = beside_read(&pcreq(&[RP, other, ENDS, iro]));
    assert_eq!(first.unwrap().unwrap().addresses, EVERY[0]);
}

/// Damaged in up to three bytes, and cut off.
#[test]
fn damaged() {
    let iro = "0A12000C 2004FBF1 2004FBF2";
    let other_ends = "0412000C C0000201 C0000216";
    let bound = "0610000C 00000102 41600000";
    let skipped = "09100008 00000000";
    let model = pcreq(&[
        skipped,
        XRO,
        "05120008 42C80000",
        ENDS,
        iro,
        RP,
        other_ends,
        bound,
    ]);
    let drawn = &mut Drawn::new(2);
    let mut told = [0; 43];
    for _ in 0..50_000 {
        let whole = model.len() as u32;
        let length = [drawn.below(whole + 1), whole][usize::from(drawn.below(4) != 0)];
        let mut message = model[..length as usize].to_vec();
        for _ in 0..drawn.below(4).min(length) {
            message[drawn.below(length) as usize] =
                [drawn.byte(), drawn.byte() & 15][drawn.below(2) as usize];
        }
        if length >= 4 && drawn.below(2) == 0 {
            message[3] = length as u8;
        }
        match beside_read(&message) {
            Ok(path) => told[usize::from(path.is_none())] += 1,
            Err((number, _)) => told[number as usize] += 1,
        }
    }
    for (number, least) in [
        (0, 1000),
        (1, 100),
        (36, 1000),
        (37, 1000),
        (38, 100),
        (39, 10),
    ] {
        assert!(told[number] >= least, "{number}: {} times", told[number]);
    }
}
