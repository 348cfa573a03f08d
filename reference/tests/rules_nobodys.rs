//! AS numbers that are nobody's (document 02's request [6]): the cases typed in by
//! hand, and what goes before the lists.

use crate::common;
use common::messages::*;
use common::nobodys::*;
use common::{check, file, first, plain_domains, profile_w, read, S, SHORT, Z};
use reference::{PcReq, Request};

#[test]
fn domain_records() {
    for (profile, told) in profiles() {
        assert_eq!(check(&profile), told, "{profile:02X?}");
    }
}

/// Number and place of first; no path is no refusal.
fn refusal(request: &Request) -> (u32, u32) {
    match first(request, 17) {
        (0 | 1, ..) => (0, 0),
        (number, numbers, _) => (number, numbers[0]),
    }
}

/// Number and place of the tree by one pass.
fn one_pass(request: &Request) -> (u32, u32) {
    let (mut words, mut marks, mut numbers) = ([[0; 241]; 3], [0; 241], [7; 4]);
    let [level, address, cost] = &mut words;
    let number = reference::one_pass_tree(request, level, address, &mut marks, cost, &mut numbers);
    (number, numbers[0])
}

#[test]
fn either_list() {
    let profile = neighbours();
    for (include, exclude, told) in lists() {
        let which = format!("{include} | {exclude}");
        let (include, exclude) = (hex(&include), hex(&exclude));
        let request = request(&profile, &include, &exclude);
        assert_eq!(refusal(&request), told, "{which}");
        assert_eq!(one_pass(&request), told, "{which}");
        if exclude.is_empty() {
            let read = read(&profile, 0, &include);
            assert_eq!(read.err().unwrap_or((0, 0)), told, "{which}");
        }
    }
}

/// The numbers beside them name and exclude domains as before.
#[test]
fn what_others_mean() {
    let profile = neighbours();
    for (index, name) in OTHERS {
        let list = hex(name);
        let mut stops = vec![(0, None, Vec::new()), (index, None, Vec::new())];
        stops.dedup();
        assert_eq!(read(&profile, 0, &list), Ok(stops), "{name}");
        let (number, ..) = first(&request(&profile, &[], &list), 2);
        assert_eq!(number, u32::from(index == 0), "{name}");
    }
}

#[test]
fn what_goes_before_the_lists() {
    let (profile, list) = (neighbours(), hex("20 04 00 00"));
    let long = list.repeat(257);
    let wrong = request(&profile, &list, &list);
    assert_eq!(refusal(&request(&profile, &long, &list)), (22, 0));
    assert_eq!(refusal(&request(&profile, &list, &long)), (22, 1));
    let nobodys = file(1, &plain_domains(&[0]), &[]);
    let mut request = Request {
        profile: &nobodys,
        ingress: 25,
        bandwidth_bits: u32::MAX,
        bound_counts: true,
        bound_bits: 0x7F80_0000,
        ..wrong
    };
    assert_eq!(refusal(&request), (14, 0));
    request.profile = &profile;
    assert_eq!(refusal(&request), (20, 0));
    request.ingress = 24;
    assert_eq!(refusal(&request), (21, 0));
    request.bandwidth_bits = 0;
    assert_eq!(refusal(&request), (21, 1));
    request.bound_counts = false;
    assert_eq!(refusal(&request), (26, 0));
}

#[test]
fn exrs_bytes_for_the_writer() {
    for (bytes, is_written) in written() {
        let (mut out, mut numbers) = ([0xAA; 200], [7; 2]);
        let counts = [0, bytes.len() as u32];
        let number = reference::write_list(
            &neighbours(),
            &[0, 2],
            &[0; 2],
            &[0; 2],
            &counts,
            &bytes,
            &mut out,
            &mut numbers,
        );
        assert_eq!(number, if is_written { 0 } else { 35 }, "{bytes:02X?}");
        let untouched = (numbers, out) == ([0; 2], [0xAA; 200]);
        assert_eq!(untouched, !is_written, "{bytes:02X?}");
    }
}

/// Number and place of reading a PCReq with these objects; the calls through it
/// refuse the same.
fn through(objects: &[Vec<u8>]) -> (u32, u32) {
    let whole = [&[rp(1, 0), end_points(S, Z)], objects].concat();
    let (message, mut numbers) = (message(PCREQ, &whole), [7; 11]);
    let number = reference::read_pcreq(&message, &mut [], &mut [], &mut [], &mut numbers);
    let (profile, mut again) = (profile_w(), [7; 4]);
    let asked = PcReq {
        profile: &profile,
        ingress: 0,
        message: &message,
    };
    let same = reference::pcreq_first(&asked, &mut [0; 17], &mut again);
    if number != 0 {
        assert_eq!(numbers[1..], [0; 10]);
        assert_eq!((same, again), (number, [numbers[0], 0, 0, 0]));
    }
    (number, numbers[0])
}

#[test]
fn in_messages() {
    for wrong in NOBODYS {
        let list = [&SHORT[..4], &hex(wrong)].concat();
        assert_eq!(through(&[iro(&list)]), (26, 4), "{wrong}");
        assert_eq!(through(&[xro(&list), iro(&SHORT)]), (26, 4), "{wrong}");
        assert_eq!(through(&[iro(&hex(&exrs(wrong)))]), (26, 4), "{wrong}");
        // Of two the first counts.
        assert_eq!(through(&[iro(&SHORT), iro(&list)]), (0, 0), "{wrong}");
    }
    for (_, fine) in OTHERS {
        let list = hex(fine);
        assert_eq!(through(&[iro(&list), xro(&list)]), (0, 0), "{fine}");
    }
}

/// An ERO knows type 1 alone, and its addresses may be any.
#[test]
fn in_an_ero_nothing_changes() {
    for (ero, number) in [
        (object(7, 1, 0, &hex("20 04 00 00")), 24),
        (object(7, 1, 0, &hex("05 08 00 00 00 00 5B A0")), 24),
        (ero(&[0, 23_456]), 0),
    ] {
        let message = message(PCREP, &[rp(1, 0), ero]);
        let (mut addresses, mut numbers) = ([7; 2], [7; 8]);
        let none = (&mut [][..], &mut [][..], &mut [][..]);
        let read = reference::read_pcrep(
            &message,
            &mut addresses,
            none.0,
            none.1,
            none.2,
            &mut numbers,
        );
        assert_eq!((read, numbers[0]), (number, 0));
    }
}
