//! The largest answers that there are: a sequence of 16 domains, a written list
//! of 568 bytes, a tree of 241 entries, a path of 17 addresses.

use std::net::Ipv4Addr;
use yachayniq::{Entry, Path, Profile, Request, Stop};

const SOURCE: Ipv4Addr = Ipv4Addr::new(10, 0, 0, 1);
const DESTINATION: Ipv4Addr = Ipv4Addr::new(10, 0, 0, 255);

/// Entry node `j` of a domain.
fn node(domain: u16, j: u8) -> Ipv4Addr {
    Ipv4Addr::new(10, 1, domain as u8, j)
}

/// Each of the 16 domains has an AS of its own and the longest area. Each is
/// entered through as many nodes as there can be, and node j of one leads to node
/// j of the next.
fn profile() -> Profile {
    let mut bytes = b"DSP\0\x01\x01\0\x10\x01\0\0\0".to_vec();
    for domain in 0..16u32 {
        bytes.extend((1000 + domain).to_be_bytes());
        bytes.extend([2, 13]);
        bytes.extend([0x49; 13]);
        bytes.push(0);
    }
    for domain in 0..16 {
        for j in 0..16 {
            let next = if domain == 15 { 15 } else { domain + 1 };
            bytes.extend([domain, next].map(u16::to_be_bytes).concat());
            let u = if domain == 0 { SOURCE } else { node(domain, j) };
            let v = if domain == 15 {
                DESTINATION
            } else {
                node(next, j)
            };
            bytes.extend([u, v].map(|node| node.octets()).concat());
            bytes.extend([0, 0, 0, 1, 0, 0, 0, 0]);
        }
    }
    Profile::new(bytes).unwrap()
}

/// The path through node j of each domain.
fn by(j: u8) -> Path {
    let inner = (1..16).map(|domain| node(domain, j));
    Path {
        addresses: [SOURCE]
            .into_iter()
            .chain(inner)
            .chain([DESTINATION])
            .collect(),
        total: 16,
        total_float: 16.0,
        round: 1,
    }
}

#[test]
fn largest() {
    let profile = profile();
    let through = |pin: Option<u8>| -> Vec<Stop> {
        let stop = |domain| Stop {
            pin: pin.filter(|_| domain > 0).map(|j| node(domain, j)),
            ..Stop::new(domain)
        };
        (0..16).map(stop).collect()
    };
    let pinned = profile.write_list(&through(Some(5))).unwrap();
    assert_eq!(pinned.len(), 568);
    assert_eq!(profile.read_include(0, &pinned), Ok(through(Some(5))));
    let free = profile.write_list(&through(None)).unwrap();

    let request = Request::new(SOURCE, DESTINATION);
    let by_five = Request {
        include: &pinned,
        ..request
    };
    assert!(profile.paths(&by_five).unwrap().eq([by(5)]));
    let every = Request {
        include: &free,
        ..request
    };
    assert_eq!(by(0).addresses.len(), 17);
    assert!(profile.paths(&every).unwrap().eq((0..16).map(by)));

    let tree = profile.tree(&every).unwrap();
    let entry = |level: u16, address| Entry {
        level: level.into(),
        address,
        reachable: true,
        cost: 16 - u32::from(level),
    };
    let nodes = (1..16).flat_map(|level| (0..16).map(move |j| (level, node(level, j))));
    let mut entries = vec![entry(0, SOURCE)];
    entries.extend(nodes.map(|(level, address)| entry(level, address)));
    assert_eq!(entries.len(), 241);
    assert_eq!((tree.entries, tree.tally), (entries, 256));
}
