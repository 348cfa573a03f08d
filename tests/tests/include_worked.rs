//! Document 01's worked cases on include lists, through read_include; first
//! the one without a star.

use tests::by_hand::{domain, file, profile_w, without_exrs, SHORT, U};
use tests::lists::{bare, entry, long_as, ospf, read, short_as};

#[test]
fn worked_is_is_area_of_three_bytes() {
    let domains = [domain(64496, 1, &[0; 4]), domain(64496, 2, &[0x49, 0, 1])];
    let profile = file(0, &domains, &[]);
    let mut list = [0x07, 0x08, 0x03, 0x00, 0x49, 0x00, 0x01, 0x00];
    assert_eq!(read(&profile, 0, &list, "length 3"), bare([0, 1]));
    for area_length in [0, 14] {
        list[2] = area_length;
        let reading = read(&profile, 0, &list, area_length);
        assert_eq!(reading, Err((26, 0)), "area length {area_length}");
    }
}

#[test]
fn worked_lists_on_profile_w() {
    let w = profile_w();
    let long = [long_as(64497), long_as(64498)].concat();
    let u_pinned = [short_as(64497), entry(U), short_as(64498)].concat();
    let back = [long_as(64497), long_as(64496)].concat();
    for (list, expected) in [
        (&SHORT[..], bare([0, 1, 2])),
        (&long, bare([0, 1, 2])),
        (
            &u_pinned,
            without_exrs([(0, None), (1, None), (2, Some(U))]),
        ),
        (&[], bare([0])),
        (&back, Err((30, 8))),
    ] {
        assert_eq!(read(&w, 0, list, "W"), expected, "{list:02X?}");
    }
}

/// 64500 with area 0 and 64501 with areas 0 and 4, all OSPF.
fn figure_3() -> Vec<u8> {
    let records = [(64500, 0), (64501, 0), (64501, 4)];
    let domains = records.map(|(of, area)| domain(of, 1, &[0, 0, 0, area]));
    file(0, &domains, &[])
}

#[test]
fn worked_lists_on_figure_3() {
    let short = [long_as(64501), ospf(0), ospf(4)].concat();
    let long = [long_as(64500), ospf(0), short.clone()].concat();
    for (list, expected) in [
        (short, bare([0, 1, 2])),
        (long, bare([0, 1, 2])),
        (long_as(64501), Err((29, 0))),
        (short_as(64501), Err((29, 0))),
    ] {
        let reading = read(&figure_3(), 0, &list, "figure 3");
        assert_eq!(reading, expected, "{list:02X?}");
    }
}
