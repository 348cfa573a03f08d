//! AS numbers that are nobody's (document 02's request [6]): profiles, lists and
//! EXRS typed in by hand, with what is told of each.

use super::messages::hex;
use super::{ask, domain, file, header, hop, plain_domains};
use reference::Request;

/// Number and place; both are 0 where nothing is refused.
pub type Told = (u32, u32);

// Profiles.

/// Profiles, each with what is told of it.
pub fn profiles() -> Vec<(Vec<u8>, Told)> {
    [in_order(), out_of_order(), beside_them(), with_more_wrong()].concat()
}

/// Profiles of domains without areas: class, AS numbers, what is told.
fn plainly(rows: &[(u8, &[u32], Told)]) -> Vec<(Vec<u8>, Told)> {
    let profile = |&(class, as_numbers, told): &(u8, &[u32], Told)| {
        (file(class, &plain_domains(as_numbers), &[]), told)
    };
    rows.iter().map(profile).collect()
}

fn in_order() -> Vec<(Vec<u8>, Told)> {
    let last_of_64: Vec<u32> = (23_393..=23_456).collect();
    plainly(&[
        (1, &[0], (14, 0)),
        (1, &[23_456], (14, 0)),
        (1, &[0, 1, 2], (14, 0)),
        (1, &[0, 23_456, 30_000], (14, 0)),
        (1, &[23_456, 23_457, 23_458], (14, 0)),
        (1, &[23_455, 23_456, 23_457], (14, 1)),
        (1, &[1, 23_455, 23_456], (14, 2)),
        (1, &last_of_64, (14, 63)),
        // Outside the reserved ranges too, which in class 0 is 16.
        (0, &[0], (14, 0)),
        (0, &[23_456], (14, 0)),
        (0, &[0, 64_496, 64_497], (14, 0)),
        (0, &[23_456, 64_496, 64_497], (14, 0)),
    ])
}

/// What is out of order is 15, and that is told later.
fn out_of_order() -> Vec<(Vec<u8>, Told)> {
    plainly(&[
        (1, &[1, 0, 2], (14, 1)),
        (1, &[1, 2, 0], (14, 2)),
        (1, &[1, 0, 23_456], (14, 1)),
        (1, &[30_000, 23_456, 40_000], (14, 1)),
        (1, &[30_000, 40_000, 23_456], (14, 2)),
        (0, &[64_496, 0, 64_497], (14, 1)),
        (0, &[64_496, 64_497, 0], (14, 2)),
        (0, &[64_496, 23_456, 64_497], (14, 1)),
        (0, &[64_496, 64_497, 23_456], (14, 2)),
        (0, &[64_496, 23_456, 64_496], (14, 1)),
    ])
}

/// Numbers beside them, and those with the same 16 bits in one half or both.
fn beside_them() -> Vec<(Vec<u8>, Told)> {
    let up_to_64: Vec<u32> = (23_393..23_456).chain([23_457]).collect();
    let others = [1, 23_455, 23_457, 0x0001_5BA0, 0x0002_0000, 0x5BA0_0000];
    let mut all = plainly(&[(1, &up_to_64, (0, 0)), (1, &others, (0, 0))]);
    for as_number in others.into_iter().chain([0x5BA0_5BA0, 0xA05B_0000]) {
        let alone = [as_number];
        all.extend(plainly(&[(1, &alone, (0, 0)), (0, &alone, (16, 0))]));
    }
    all
}

fn with_more_wrong() -> Vec<(Vec<u8>, Told)> {
    let mut all = Vec::new();
    for as_number in [0, 23_456] {
        // An earlier record's 15 or 16; a later one's.
        all.extend(plainly(&[
            (1, &[2, 1, as_number], (15, 1)),
            (1, &[64_496, as_number], (16, 0)),
            (0, &[64_495, as_number], (16, 0)),
            (1, &[as_number, 64_496], (14, 0)),
            (1, &[as_number, as_number], (14, 0)),
        ]));
        let alone = domain(as_number, 0, &[]);
        let [ospf, is_is] = [(1, &[0, 0, 0, 4][..]), (2, &[0x49])]
            .map(|(kind, area)| domain(as_number, kind, area));
        let one = domain(1, 0, &[]);
        let rows: [(&[&Vec<u8>], Told); 6] = [
            // Areas, alone and after a kind 0 of their AS.
            (&[&ospf, &is_is], (14, 0)),
            (&[&is_is, &ospf], (14, 0)),
            (&[&alone, &ospf], (14, 0)),
            // The other reasons of 14, in the same record and in one before it.
            (&[&one, &domain(as_number, 3, &[])], (14, 1)),
            (&[&one, &domain(as_number, 0, &[1])], (14, 1)),
            (&[&one, &domain(7, 1, &[1]), &alone], (14, 1)),
        ];
        for (records, told) in rows {
            let records: Vec<Vec<u8>> = records.iter().copied().cloned().collect();
            all.push((file(1, &records, &[]), told));
        }
        // The hop records come later, the header earlier.
        let hops = [hop(9, 0, 1, 2, u32::MAX, u32::MAX)];
        all.push((file(1, &[alone.clone()], &hops), (14, 0)));
        all.push(([header(1, 1, 1), alone.clone()].concat(), (13, 0)));
        all.push(([header(2, 1, 0), alone].concat(), (12, 0)));
    }
    all
}

// Lists.

/// 1, 23455, 23457 and two numbers with 23456 in one half, without areas; then an
/// AS with 20 areas. In domain 0 a hop leads from 0.0.0.1 to 0.0.0.2.
pub fn neighbours() -> Vec<u8> {
    let mut records = plain_domains(&[1, 23_455, 23_457, 0x0001_5BA0, 0x5BA0_0000]);
    records.extend((0..20).map(|area| domain(0x7FFF_0000, 1, &[0, 0, 0, area])));
    file(1, &records, &[hop(0, 0, 1, 2, 1, 0)])
}

/// A request on that profile along that hop.
pub fn request<'a>(profile: &'a [u8], include: &'a [u8], exclude: &'a [u8]) -> Request<'a> {
    Request {
        source: 1,
        destination: 2,
        bandwidth_bits: 0,
        exclude,
        ..ask(profile, include)
    }
}

/// Nobody's in either form, once with the ignored bytes set.
pub const NOBODYS: [&str; 5] = [
    "20 04 00 00",
    "20 04 5B A0",
    "05 08 00 00 00 00 00 00",
    "05 08 00 00 00 00 5B A0",
    "05 08 FF FF 00 00 5B A0",
];

/// Domains of that profile by their AS, in each form that can say it; the ignored
/// bytes of the last are 23456.
pub const OTHERS: [(u16, &str); 9] = [
    (0, "20 04 00 01"),
    (0, "05 08 00 00 00 00 00 01"),
    (1, "20 04 5B 9F"),
    (1, "05 08 00 00 00 00 5B 9F"),
    (2, "20 04 5B A1"),
    (2, "05 08 00 00 00 00 5B A1"),
    (3, "05 08 00 00 00 01 5B A0"),
    (4, "05 08 00 00 5B A0 00 00"),
    (4, "05 08 5B A0 5B A0 00 00"),
];

/// Fine in either list; as an include list it adds nothing.
const FINE: &str = "20 04 00 01";

/// An include and an exclude list for that profile, from domain 0 on, in hex, and
/// what is told of them.
pub type Lists = (String, String, Told);

pub fn lists() -> Vec<Lists> {
    [
        in_either_list(),
        inside_an_exrs(),
        last_in_its_subobject(),
        beside_other_faults(),
        before_every_meaning(),
        the_include_list_first(),
        of_others(),
    ]
    .concat()
}

/// The same as an include list alone, and as an exclude list alone.
fn as_both(list: &str, told: Told) -> [Lists; 2] {
    let list = list.to_string();
    [
        (list.clone(), String::new(), told),
        (String::new(), list, told),
    ]
}

fn as_include(list: String, number: u32, place: u32) -> Lists {
    (list, String::new(), (number, place))
}

/// The exclusion with X set.
pub fn desired(piece: &str) -> String {
    let first = u8::from_str_radix(&piece[..2], 16).expect("two hex digits");
    format!("{:02X}{}", first | 0x80, &piece[2..])
}

/// An EXRS with these bytes inside.
pub fn exrs(inside: &str) -> String {
    format!("21 {:02X} 00 00 {inside}", 4 + hex(inside).len())
}

fn in_either_list() -> Vec<Lists> {
    let mut all = Vec::new();
    for wrong in NOBODYS {
        for (before, place) in [("", 0), (FINE, 4), ("05 08 00 00 00 00 00 01", 8)] {
            for after in ["", FINE, "22 04 00 00"] {
                let told = (26, place);
                all.extend(as_both(&format!("{before} {wrong} {after}"), told));
                let list = format!("{before} {} {after}", desired(wrong));
                all.push((String::new(), list, told));
            }
        }
        // An area right behind it doesn't take the fault, as it does for 28.
        all.extend(as_both(
            &format!("{wrong} 06 08 00 00 00 00 00 00"),
            (26, 0),
        ));
    }
    all
}

fn inside_an_exrs() -> Vec<Lists> {
    let mut all = Vec::new();
    for wrong in NOBODYS
        .iter()
        .flat_map(|wrong| [wrong.to_string(), desired(wrong)])
    {
        for (inside, place) in [
            (wrong.clone(), 4),
            (format!("{FINE} {wrong}"), 8),
            (format!("01 08 00 00 00 07 20 01 {wrong} {FINE}"), 12),
        ] {
            let one = exrs(&inside);
            all.push(as_include(format!("{one} 20 04 5B A1"), 26, place));
            let second = format!("{} {one} 20 04 5B A1", exrs(FINE));
            all.push(as_include(second, 26, 8 + place));
            // An exclude list has no EXRS.
            all.push((String::new(), one, (24, 0)));
        }
    }
    all
}

/// What goes before it in the same subobject, alone and after another one.
fn last_in_its_subobject() -> Vec<Lists> {
    let mut all = Vec::new();
    for (list, number, place) in [
        ("A0 04 00 00", 27, 0),
        ("85 08 00 00 00 00 5B A0", 27, 0),
        ("20 08 00 00", 25, 0),
        ("20 03 5B A0", 25, 0),
        ("05 04 00 00 00 00 00 00", 25, 0),
        ("05 0C 00 00 00 00 5B A0", 25, 0),
        ("20 04 00", 23, 0),
        ("05 08 00 00 00 00 00", 23, 0),
        ("05 08 00 00 00 00 5B", 23, 0),
        ("22 04 00 00", 24, 0), // another type
        // Inside an EXRS, and of what is wrong with that itself.
        ("21 08 00 00 20 08 00 00", 25, 4),
        ("21 07 00 00 20 04 00", 23, 4),
        ("21 0B 00 00 05 08 00 00 00 00 5B A0", 23, 4),
        ("A1 08 00 00 20 04 00 00", 27, 0),
        ("21 03 00 00 20 04 00 00", 25, 0),
        ("21 0C 00 00 20 04 00 00", 23, 0),
        ("21 04 00 00 20 04 00 00", 26, 0),
    ] {
        all.push(as_include(list.to_string(), number, place));
        let later = format!("{FINE} {list}");
        all.push(as_include(later, number, place + 4));
    }
    // An address and an area aren't an AS.
    let addresses = "01 08 00 00 5B A0 20 01 01 08 00 00 00 00 20 01";
    let areas = "06 08 00 00 00 00 00 00 06 08 00 00 00 00 5B A0 07 08 02 00 5B A0 00 00";
    all.push((String::new(), format!("{addresses} {areas}"), (0, 0)));
    all
}

/// The first subobject of wrong form is told, whatever its number.
fn beside_other_faults() -> Vec<Lists> {
    let mut all = Vec::new();
    for nobodys in NOBODYS {
        for (other, number, place) in [
            ("22 04 00 00", 24, 0),
            ("20 08 00 09", 25, 0),
            ("07 08 03 00 49 00 01 01", 26, 0),
            ("A0 04 00 09", 27, 0),
            ("21 08 00 00 22 04 00 09", 24, 4),
            ("21 0C 00 00 01 08 00 00 00 07 20 00", 26, 4),
        ] {
            all.push(as_include(format!("{other} {nobodys}"), number, place));
            all.push(as_include(format!("{nobodys} {other}"), 26, 0));
        }
        all.push(as_include(format!("{nobodys} 05 08"), 26, 0));
        all.push(as_include(format!("{nobodys} {nobodys}"), 26, 0));
        let later = format!("06 08 00 00 00 00 00 00 {nobodys} {nobodys}");
        all.push(as_include(later, 26, 8));
    }
    all
}

/// Lists of right form that are refused by their meaning.
fn without_meaning() -> Vec<Lists> {
    let areas = "05 08 00 00 7F FF 00 00";
    let area = |area: u8| format!("06 08 00 00 00 00 00 {area:02X}");
    let sixteen: Vec<String> = (0..16).map(area).collect();
    let entry = "01 08 00 00 00 07 20 00";
    vec![
        as_include("20 04 00 09".to_string(), 28, 0),
        as_include(format!("20 04 00 09 {}", area(0)), 28, 4),
        as_include(areas.to_string(), 29, 0),
        as_include(format!("20 04 5B A1 {FINE}"), 30, 4),
        as_include(format!("{areas} {}", sixteen.join(" ")), 31, 128),
        as_include(format!("{entry} {entry}"), 32, 8),
        as_include(entry.to_string(), 32, 0),
        as_include(exrs(FINE), 42, 0),
    ]
}

/// In a list that is refused by its meaning, before and behind what is, and in the
/// exclude list beside it, whose form goes before any meaning too.
fn before_every_meaning() -> Vec<Lists> {
    let mut all = without_meaning();
    for (list, ..) in without_meaning() {
        let length = hex(&list).len() as u32;
        for nobodys in NOBODYS {
            all.push(as_include(format!("{list} {nobodys}"), 26, length));
            all.push(as_include(format!("{nobodys} {list}"), 26, 0));
            let inside = format!("{list} {}", exrs(nobodys));
            all.push(as_include(inside, 26, length + 4));
            all.push((list.clone(), format!("{FINE} {nobodys}"), (26, 4)));
        }
    }
    all
}

fn the_include_list_first() -> Vec<Lists> {
    let (early, late) = ("20 04 00 00", "20 04 00 09 20 04 00 09 20 04 5B A0");
    [
        (late, early, (26, 8)),
        (early, late, (26, 0)),
        (early, "22 04 00 00", (26, 0)),
        ("22 04 00 00", early, (24, 0)),
    ]
    .map(|(include, exclude, told)| (include.to_string(), exclude.to_string(), told))
    .into()
}

/// Numbers beside them: nothing is refused.
fn of_others() -> Vec<Lists> {
    let mut all = Vec::new();
    for (_, fine) in OTHERS {
        all.extend(as_both(fine, (0, 0)));
        all.push((String::new(), desired(fine), (0, 0)));
        let inside = exrs(&format!("{fine} {}", desired(fine)));
        all.push(as_include(format!("{inside} 20 04 5B A1"), 0, 0));
    }
    all
}

// EXRS for the writer.

/// The bytes of the second domain's EXRS, and whether they are written.
pub fn written() -> Vec<(Vec<u8>, bool)> {
    let mut all = Vec::new();
    for wrong in NOBODYS
        .iter()
        .flat_map(|wrong| [wrong.to_string(), desired(wrong)])
    {
        all.push((hex(&exrs(&wrong)), false));
        all.push((hex(&exrs(&format!("{FINE} {wrong}"))), false));
        all.push((hex(&exrs(&format!("{wrong} {FINE}"))), false));
        all.push((hex(&[exrs(FINE), exrs(&wrong)].join(" ")), false));
    }
    let fine = OTHERS.iter().map(|(_, fine)| (hex(&exrs(fine)), true));
    all.extend(fine);
    all
}
