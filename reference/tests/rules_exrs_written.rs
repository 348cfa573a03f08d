//! The rules for EXRS that are written (document 02's request [5]): where they
//! stand in the list, and each cause of 35.

use crate::common;
use common::messages::hex;
use common::*;

/// 0: 64496; 1 and 2: 64497 with OSPF areas 0 and 4; 3: 65536.
fn profile() -> Vec<u8> {
    let domains = [
        domain(64496, 0, &[]),
        domain(64497, 1, &[0, 0, 0, 0]),
        domain(64497, 1, &[0, 0, 0, 4]),
        domain(65536, 0, &[]),
    ];
    file(0, &domains, &[])
}

/// Number, numbers and the buffer; `pinned` domains have the node 7.
fn write_into(
    room: usize,
    domains: &[u16],
    pinned: &[u8],
    counts: &[u32],
    exrs: &[u8],
) -> (u32, [u32; 2], Vec<u8>) {
    let (mut out, mut numbers) = (vec![0xAA; room], [9; 2]);
    let number = reference::write_list(
        &profile(),
        domains,
        pinned,
        &vec![7; domains.len()],
        counts,
        exrs,
        &mut out,
        &mut numbers,
    );
    (number, numbers, out)
}

/// The list, or the number; 1,024 bytes are always enough.
fn write(domains: &[u16], counts: &[u32], exrs: &str) -> Result<Vec<u8>, u32> {
    let pinned = vec![0; domains.len()];
    let (number, numbers, out) = write_into(1_024, domains, &pinned, counts, &hex(exrs));
    let length = numbers[1] as usize;
    assert_eq!(numbers[0], 0);
    assert!(out[length..].iter().all(|&byte| byte == 0xAA));
    match number {
        0 => Ok(out[..length].to_vec()),
        _ => Err(number),
    }
}

const Q_OUT: &str = "21 0C 00 00 01 08 C0 00 02 0C 20 01";
const AS_9: &str = "21 08 12 34 A0 04 00 09";

#[test]
fn exrs_stand_between_the_entry_constraint_and_the_as() {
    let exrs = hex(&format!("{AS_9} {Q_OUT} {AS_9}"));
    let expected = hex(&format!(
        "05 08 00 00 00 00 FB F1 06 08 00 00 00 00 00 04 # 64497, area 4
         01 08 00 00 00 07 20 00 {AS_9} {Q_OUT}          # for the next
         06 08 00 00 00 00 00 00                         # area 0
         {AS_9} 05 08 00 00 00 01 00 00                  # 65536"
    ));
    let (domains, pinned, counts) = ([2, 1, 3], [0, 1, 0], [0, 20, 8]);
    let whole = expected.len();
    let written = write_into(whole, &domains, &pinned, &counts, &exrs);
    assert_eq!(written, (0, [0, whole as u32], expected.clone()));
    let short = write_into(whole - 1, &domains, &pinned, &counts, &exrs);
    assert_eq!(short, (34, [0, 0], vec![0xAA; whole - 1]));
    let stops = vec![
        (2, None, Vec::new()),
        (1, Some(7), exrs[..20].to_vec()),
        (3, None, exrs[20..].to_vec()),
    ];
    assert_eq!(read(&profile(), 2, &expected), Ok(stops));
}

#[test]
fn the_first_domain_has_none() {
    assert_eq!(write(&[0, 3], &[8, 0], AS_9), Err(35));
    assert_eq!(write(&[0], &[8], AS_9), Err(35));
    assert!(write(&[0, 3], &[0, 8], AS_9).is_ok());
}

#[test]
fn bytes_that_are_no_whole_exrs_of_right_form() {
    for wrong in [
        "21",
        "21 08 00",
        "21 04 00 00",                         // nothing inside
        "21 03 00 00",                         // under 4
        "21 08 00 00 20 04 00",                // not whole
        "21 0C 00 00 20 04 00 09",             // not whole
        "A1 08 00 00 20 04 00 09",             // L
        "20 04 00 09",                         // no EXRS
        "22 08 00 00 20 04 00 09",             // another type
        "21 08 00 00 21 04 00 00",             // an EXRS inside
        "21 08 00 00 20 08 00 00",             // length inside
        "21 09 00 00 20 04 00 09 20",          // under 4 inside
        "21 0C 00 00 01 08 C0 00 02 0C 21 01", // prefix length 33
        "21 0C 00 00 01 08 C0 00 02 0C 20 00", // attribute 0
        "21 0C 00 00 07 08 03 00 49 00 01 01", // padding
        "21 0C 00 00 07 08 00 00 00 00 00 00", // area length 0
    ] {
        for before in ["", AS_9] {
            let bytes = format!("{before} {wrong}");
            let count = hex(&bytes).len() as u32;
            assert_eq!(write(&[0, 3], &[0, count], &bytes), Err(35), "{bytes}");
            // Wrong by itself, though the bytes after it would do.
            let whole = count + 8;
            let bytes = format!("{bytes} {AS_9}");
            let counts = [0, whole - 8, 8];
            assert_eq!(write(&[0, 3, 1], &counts, &bytes), Err(35), "{bytes}");
        }
    }
}

#[test]
fn counts_that_do_not_fit_together() {
    let both = format!("{AS_9} {Q_OUT}");
    for counts in [[0, 8, 12], [0, 20, 0], [0, 0, 20]] {
        assert!(write(&[0, 3, 1], &counts, &both).is_ok(), "{counts:?}");
    }
    let high = 1 << 31;
    for counts in [
        &[][..],
        &[0, 20],
        &[0, 8, 12, 0],
        &[0, 8, 11],
        &[0, 8, 13],
        &[0, 8, 8],
        &[0, 0, 0],
        &[0, 12, 8], // an EXRS in two
        &[0, 4, 16],
        &[8, 0, 12],
        &[0, u32::MAX, 21],
        &[0, high + 8, high + 12],
        &[high, high + 8, 12],
    ] {
        assert_eq!(write(&[0, 3, 1], counts, &both), Err(35), "{counts:?}");
    }
    assert_eq!(write(&[0], &[0], AS_9), Err(35));
    let bare = hex("05 08 00 00 00 00 FB F0 05 08 00 00 00 01 00 00");
    assert_eq!(write(&[0, 3], &[0, 0], ""), Ok(bare));
}

#[test]
fn a_list_of_at_most_1024_bytes() {
    // 64496 and 65536 take 16 bytes; four EXRS of 252 leave none.
    let longest = format!("21 FC 00 00 {}", "20 04 00 09 ".repeat(62));
    let four = longest.repeat(4);
    let list = write(&[0, 3], &[0, 1_008], &four).expect("it fits");
    assert_eq!(list.len(), 1_024);
    let stops = vec![(0, None, Vec::new()), (3, None, hex(&four))];
    assert_eq!(read(&profile(), 0, &list), Ok(stops));
    // Eight bytes more, in one EXRS or as an entry constraint; then four.
    let over = format!("{four} {AS_9}");
    assert_eq!(write(&[0, 3], &[0, 1_016], &over), Err(35));
    let pinned = write_into(2_000, &[0, 3], &[0, 1], &[0, 1_008], &hex(&four));
    assert_eq!(pinned, (35, [0, 0], vec![0xAA; 2_000]));
    let shorter = format!("21 F8 00 00 {}", "20 04 00 09 ".repeat(61));
    let by_four = format!("{} {shorter} {AS_9}", longest.repeat(3));
    assert_eq!(hex(&by_four).len(), 1_012);
    assert_eq!(write(&[0, 3], &[0, 1_012], &by_four), Err(35), "1,028");
    // 35 goes before 34.
    let none = write_into(0, &[0, 3], &[0, 0], &[0, 1_012], &hex(&by_four));
    assert_eq!(none, (35, [0, 0], vec![]));
}

#[test]
fn the_profile_goes_before_35() {
    let mut damaged = profile();
    damaged[12 + 4] = 3;
    let mut numbers = [9; 2];
    let number = reference::write_list(&damaged, &[], &[], &[], &[], &[1], &mut [], &mut numbers);
    assert_eq!((number, numbers), (14, [0, 0]));
}
