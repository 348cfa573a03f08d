//! EXRS: made of exclusions, written in a list, read back, and what they take
//! away; what can't be made, and what the library refuses.

mod common;

use common::*;
use std::net::Ipv4Addr;
use yachayniq::{
    read_exrs, write_exrs, write_pcreq, Ask, Call, Excluded, Exclusion, ExrsError, Pcreq, Profile,
    Request, Stop,
};

const NET: Ipv4Addr = Ipv4Addr::new(192, 0, 2, 0);

fn nodes(address: Ipv4Addr, prefix: u8) -> Excluded {
    Excluded::Nodes { address, prefix }
}

/// An EXRS with these exclusions, demanded.
fn exrs(what: &[Excluded]) -> Vec<u8> {
    let demanded = what.iter().cloned().map(Excluded::demanded);
    write_exrs(&demanded.collect::<Vec<_>>()).unwrap()
}

/// W's three domains, with these bytes for one of them.
fn through_w(stop: usize, exrs: &[u8]) -> Vec<Stop> {
    let mut stops = [0, 1, 2].map(Stop::new).to_vec();
    stops[stop].exrs = exrs.to_vec();
    stops
}

#[test]
fn made() {
    let nine = [0x49, 0, 1, 2, 3, 4, 5, 6, 7];
    let all = [
        Excluded::node(Q).demanded(),
        nodes(NET, 24).desired(),
        Excluded::As(65551).demanded(),
        Excluded::OspfArea(4).desired(),
        Excluded::IsisArea(nine[..3].to_vec()).demanded(),
        Excluded::IsisArea(nine.to_vec()).desired(),
    ];
    let expected = bytes(
        "213C0000 0108C000 020C2001 8108C000 02001801 05080000 0001000F 86080000 00000004 \
         07080300 49000100 87100900 49000102 03040506 07000000",
    );
    assert_eq!(write_exrs(&all), Ok(expected.clone()));
    assert_eq!(read_exrs(&expected), Ok(all.to_vec()));
    // An AS of 16 bits is one too, and bytes that are ignored may be set.
    let others = bytes("21080102 A004FBF1 210C0000 05080909 0000FBF2");
    let read = vec![
        Excluded::As(64497).desired(),
        Excluded::As(64498).demanded(),
    ];
    assert_eq!(read_exrs(&others), Ok(read));
    assert_eq!(read_exrs(&[]), Ok(vec![]));
}

#[test]
fn not_made() {
    #[track_caller]
    fn refused(exclusions: &[Exclusion], error: ExrsError, text: &str) {
        assert_eq!(write_exrs(exclusions), Err(error));
        assert_eq!(error.to_string(), text);
    }
    refused(&[], ExrsError::Nothing, "an EXRS has one exclusion or more");
    let long = vec![Excluded::As(9).demanded(); 32];
    assert_eq!(write_exrs(&long[..31]).unwrap().len(), 252);
    let text = "an EXRS has at most 252 bytes, not 260; several add up";
    refused(&long, ExrsError::TooLong(260), text);
    let text = "a prefix length is at most 32, not 33";
    refused(&[nodes(Q, 33).desired()], ExrsError::Prefix(33), text);
    for length in [0, 14] {
        let area = Excluded::IsisArea(vec![0x49; length]).demanded();
        let text = format!("an IS-IS area has 1 to 13 bytes, not {length}");
        refused(&[area], ExrsError::Area(length), &text);
    }
    for number in [0, 23456] {
        let nobodys = Excluded::As(number).desired();
        let text = format!("AS {number} is nobody's");
        refused(&[nobodys], ExrsError::As(number), &text);
        assert!(write_exrs(&[Excluded::As(number + 1).desired()]).is_ok());
    }
    for nobodys in ["21080000 20040000", "210C0000 85080000 00005BA0"] {
        assert_eq!(read_exrs(&bytes(nobodys)), Err(ExrsError::Form(4)));
    }
    let cut = bytes("210C0000 0108C000 020C2001 21080000 2004FB");
    let form = ExrsError::Form(12);
    assert_eq!(read_exrs(&cut), Err(form));
    assert_eq!(form.to_string(), "no EXRS of right form at offset 12");
}

#[test]
fn written_and_read() {
    let (q, t) = (exrs(&[Excluded::node(Q)]), exrs(&[Excluded::node(T)]));
    let nine = write_exrs(&[Excluded::As(9).desired()]).unwrap();
    let mut stops = through_w(1, &[q, nine].concat());
    stops[2] = Stop {
        domain: 2,
        pin: Some(U),
        exrs: t,
    };
    let expected = bytes(
        "05080000 0000FBF0 210C0000 0108C000 020C2001 210C0000 85080000 00000009 \
         05080000 0000FBF1 0108C000 02162000 210C0000 0108C000 02152001 05080000 0000FBF2",
    );
    assert_eq!(w().write_list(&stops), Ok(expected.clone()));
    assert_eq!(w().read_include(0, &expected), Ok(stops));
    // They wait over AS 64496, which adds nothing, and keep every byte.
    let noisy = bytes("21080102 20040009 2004FBF0 210C0304 06080506 00000007 2004FBF1");
    let kept = [&noisy[..8], &noisy[12..24]].concat();
    let stops = through_w(1, &kept)[..2].to_vec();
    assert_eq!(w().read_include(0, &noisy), Ok(stops));
}

/// The shortest paths of W with an EXRS for a domain, and their round; through a
/// PCReq they are the same.
#[track_caller]
fn leaves(stop: usize, exclusions: &[Exclusion], expected: &[[Ipv4Addr; 4]], round: u32) {
    let w = w();
    let stops = through_w(stop, &write_exrs(exclusions).unwrap());
    let include = &w.write_list(&stops).unwrap();
    let request = Request {
        include,
        ..request()
    };
    let paths: Vec<_> = w.paths(&request).unwrap().collect();
    assert!(paths.iter().all(|path| path.round == round));
    let message = write_pcreq(&Pcreq::of(7, &request)).unwrap();
    let of_message = w.pcreq_paths(0, &message).unwrap();
    assert!(of_message.eq(paths.iter().cloned()));
    let addresses: Vec<_> = paths.into_iter().map(|path| path.addresses).collect();
    assert_eq!(addresses, expected);
}

#[test]
fn paths() {
    let (p, q) = (Excluded::node(P), Excluded::node(Q));
    leaves(1, &[q.clone().demanded()], &EVERY[..1], 1);
    leaves(1, &[q.clone().desired()], &EVERY[..1], 1);
    leaves(2, &[q.clone().demanded()], &EVERY, 1);
    leaves(1, &[nodes(NET, 24).demanded()], &[], 1);
    leaves(1, &[p.desired(), q.desired()], &EVERY, 2);
    leaves(1, &[Excluded::As(64497).demanded()], &[], 1);
    leaves(2, &[Excluded::As(64497).demanded()], &EVERY, 1);
    leaves(2, &[Excluded::As(64498).desired()], &EVERY, 2);
}

/// Each call that reads the meaning of an include list refuses one whose EXRS is
/// left over, or the entry constraint before it.
#[test]
fn left_over() {
    let list = bytes("2004FBF1 21080000 20040009 0108C000 02162000 21080000 20040009");
    for (include, number, place) in [
        (&list[..12], 42, 4),
        (&list[..20], 42, 4),
        (&list[12..], 32, 0),
    ] {
        let w = w();
        let request = Request {
            include,
            ..request()
        };
        let read = w.read_include(0, include);
        assert_eq!(read, refusal(Call::ReadInclude, number, place));
        assert_eq!(w.tree(&request), refusal(Call::Tree, number, place));
        assert_eq!(w.first(&request), refusal(Call::First, number, place));
        let next = w.next(&request, &EVERY[0]);
        assert_eq!(next, refusal(Call::Next, number, place));
        let series = w.series(&request, &[Ask::First]);
        assert_eq!(series, [refusal(Call::Series, number, place)]);
        let message = &write_pcreq(&Pcreq::of(7, &request)).unwrap();
        let tree = w.pcreq_tree(0, message);
        assert_eq!(tree, refusal(Call::PcreqTree, number, place));
        let first = w.pcreq_first(0, message);
        assert_eq!(first, refusal(Call::PcreqFirst, number, place));
        let next = w.pcreq_next(0, message, &EVERY[0]);
        assert_eq!(next, refusal(Call::PcreqNext, number, place));
    }
}

#[test]
fn not_written() {
    let refused = |stops: &[Stop]| {
        assert_eq!(w().write_list(stops), refusal(Call::WriteList, 35, 0));
    };
    let q = exrs(&[Excluded::node(Q)]);
    refused(&through_w(0, &q));
    refused(&through_w(1, &q[..8]));
    refused(&through_w(1, &[&q[..], &[0]].concat()));
    refused(&through_w(1, &[&[33 | 0x80], &q[1..]].concat()));
    // Whole together, but not each domain's for itself.
    let mut parted = through_w(1, &q[..4]);
    parted[2].exrs = q[4..].to_vec();
    refused(&parted);
    // 24 bytes name the three domains: 1,000 are left.
    let [longest, rest] = [31, 30].map(|count| exrs(&vec![Excluded::As(9); count]));
    let three = longest.repeat(3);
    let list = w().write_list(&through_w(1, &[&three[..], &rest].concat()));
    assert_eq!(list.map(|list| list.len()), Ok(1024));
    refused(&through_w(1, &[three, longest].concat()));
}

/// Each byte changed to each other: the wrapper's reader finds a right form where
/// the library does.
#[test]
fn damaged() {
    let whole = exrs(&[
        Excluded::node(Q),
        Excluded::IsisArea(vec![0x49, 0, 1, 2, 3]),
        Excluded::As(9),
    ]);
    let (w, mut right): (Profile, usize) = (w(), 0);
    for at in 0..whole.len() {
        for byte in 0..=255 {
            let mut changed = whole.clone();
            changed[at] = byte;
            let written = w.write_list(&through_w(1, &changed)).is_ok();
            assert_eq!(read_exrs(&changed).is_ok(), written, "{changed:02X?}");
            right += usize::from(written);
        }
    }
    assert!(right > 5 * 256);
}
