//! Numbers that are set apart: the reserved ranges (document 01's "pools"), which
//! documentation may use and live networks may not, and what nobody may.

/// First and last AS number of each range of RFC 5398.
const AS_RANGES: [(u32, u32); 2] = [(64496, 64511), (65536, 65551)];

/// First and last address of each block of RFC 5737.
const ADDRESS_RANGES: [(u32, u32); 3] = [
    (0xC000_0200, 0xC000_02FF), // 192.0.2.0/24
    (0xC633_6400, 0xC633_64FF), // 198.51.100.0/24
    (0xCB00_7100, 0xCB00_71FF), // 203.0.113.0/24
];

fn inside(ranges: &[(u32, u32)], value: u32) -> bool {
    ranges
        .iter()
        .any(|&(first, last)| first <= value && value <= last)
}

/// AS numbers that no network has: 0 stands for none (RFC 7607), and 23456 for
/// every one that two bytes can't hold (RFC 6793).
pub fn nobodys(asn: u32) -> bool {
    matches!(asn, 0 | 23_456)
}

pub fn as_number(value: u32) -> bool {
    inside(&AS_RANGES, value)
}

pub fn address(value: u32) -> bool {
    inside(&ADDRESS_RANGES, value)
}
