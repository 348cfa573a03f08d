//! What a number means in a call: made by wrappers/numbers from wrappers/numbers.txt.

/// A call that can refuse.
#[derive(Clone, Copy, Debug, PartialEq, Eq, Hash)]
pub enum Call {
    CheckProfile,
    ReadInclude,
    WriteList,
    Tree,
    First,
    Next,
    Series,
    PcreqTree,
    PcreqFirst,
    PcreqNext,
    ReadPcreq,
    WritePcreq,
    WritePcrep,
    ReadPcrep,
}

/// Number, place (none: any), a bit for each call, meaning.
#[rustfmt::skip]
const ROWS: [(u32, Option<u32>, u32, &str); 61] = [
    (0, None, 0x3FFF, "done"),
    (1, None, 0x0150, "no path keeps the bound, in either round"),
    (2, None, 0x0220, "no shortest path is greater than the given list"),
    (2, None, 0x0040, "the path last handed out is the last one"),
    (10, None, 0x03FF, "profile under 12 bytes"),
    (11, None, 0x03FF, "mark, version or zero bytes of the profile's header wrong"),
    (12, None, 0x03FF, "class or a count in the profile's header out of range"),
    (13, None, 0x03FF, "profile's length not 12 + 20 x (domains + hops)"),
    (14, None, 0x03FF, "domain record malformed, or its AS 0 or 23456 (place: record, from 0, domain records first)"),
    (15, None, 0x03FF, "domain record out of order, or after a record of area kind 0 of its AS (place: record, from 0, domain records first)"),
    (16, None, 0x03FF, "AS or a node's address outside the reserved ranges in class 0, or inside them in class 1 (place: record, from 0, domain records first)"),
    (17, None, 0x03FF, "hop record malformed, or its cost over 16,777,215 (place: record, from 0, domain records first)"),
    (18, None, 0x03FF, "hop record out of order (place: record, from 0, domain records first)"),
    (19, None, 0x03FF, "seventeenth entry node for a pair of domains (place: first record that brings one, from 0, domain records first)"),
    (20, None, 0x03FA, "ingress not below the profile's domain count"),
    (21, Some(0), 0x0078, "bandwidth out of range: negative, -0.0, infinite or not a number"),
    (21, Some(1), 0x0078, "bound out of range: negative, -0.0, infinite or not a number"),
    (21, Some(0), 0x0F80, "BANDWIDTH out of range: negative, -0.0, infinite or not a number"),
    (21, Some(1), 0x3F80, "value of a METRIC out of range: negative, -0.0, infinite or not a number"),
    (22, Some(0), 0x0FFA, "include list over 1,024 bytes"),
    (22, Some(1), 0x0FF8, "exclude list over 1,024 bytes"),
    (23, None, 0x0002, "under 4 bytes left for a subobject, or its length past the end of the list or of the EXRS that it stands in (place: offset in the include list)"),
    (23, None, 0x0FF8, "under 4 bytes left for a subobject, or its length past the end of the list or of the EXRS that it stands in (place: offset in the include list, or if that has the right form in the exclude list)"),
    (23, None, 0x2000, "under 4 bytes left for a subobject, or its length past the ERO's end (place: offset in the ERO's body)"),
    (24, None, 0x0002, "subobject's type not 1 (IPv4), 5 or 32 (AS), 6 (OSPF area), 7 (IS-IS area) or, outside an EXRS, 33 (EXRS) (place: offset in the include list)"),
    (24, None, 0x0FF8, "subobject's type not 1 (IPv4), 5 or 32 (AS), 6 (OSPF area), 7 (IS-IS area) or, in the include list itself, 33 (EXRS) (place: offset in the include list, or if that has the right form in the exclude list)"),
    (24, None, 0x2000, "subobject's type not 1 (IPv4) (place: offset in the ERO's body)"),
    (25, None, 0x0002, "subobject's length not its type's, or an EXRS under 4 bytes (place: offset in the include list)"),
    (25, None, 0x0FF8, "subobject's length not its type's, or an EXRS under 4 bytes (place: offset in the include list, or if that has the right form in the exclude list)"),
    (25, None, 0x2000, "subobject's length not 8 (place: offset in the ERO's body)"),
    (26, None, 0x0002, "prefix length not 32 (in an EXRS: over 32, or attribute not 1), area length not 1 to 13, padding not zero, AS 0 or 23456, or nothing in an EXRS (place: offset in the include list)"),
    (26, None, 0x0FF8, "prefix length not 32 (excluding: over 32, or attribute not 1), area length not 1 to 13, padding not zero, AS 0 or 23456, or nothing in an EXRS (place: offset in the include list, or if that has the right form in the exclude list)"),
    (26, None, 0x2000, "prefix length not 32 (place: offset in the ERO's body)"),
    (27, None, 0x0FFA, "top bit (L) of a subobject set (place: offset in the include list)"),
    (27, None, 0x2000, "top bit (L) of a subobject set (place: offset in the ERO's body)"),
    (28, None, 0x03FA, "no such domain in the profile (place: offset in the include list)"),
    (29, None, 0x03FA, "AS with no area after it, where several domains have that AS (place: offset in the include list)"),
    (30, None, 0x03FA, "a domain of the sequence that was left comes back (place: offset in the include list)"),
    (31, None, 0x03FA, "a seventeenth domain (place: offset in the include list)"),
    (32, None, 0x03FA, "an entry constraint while one waits for its domain, or with no new domain after it (place: offset in the include list)"),
    (42, None, 0x03FA, "an EXRS with no new domain after it (place: offset in the include list)"),
    (33, None, 0x0220, "given list has more or fewer addresses than a path"),
    (33, None, 0x0040, "a next before any path was handed out"),
    (34, None, 0x0002, "a buffer has fewer elements than the sequence has domains, or fewer than its EXRS have bytes"),
    (34, None, 0x0004, "fewer bytes lent than the list has"),
    (34, None, 0x0088, "a buffer has fewer elements than the tree has entries"),
    (34, None, 0x0370, "fewer elements lent than a path has addresses"),
    (34, None, 0x0400, "a buffer has fewer elements than the message has METRICs"),
    (34, None, 0x1000, "fewer bytes lent than the message has"),
    (34, None, 0x2000, "a buffer has fewer elements than the path has addresses, or than the message has METRICs"),
    (35, None, 0x0004, "not a sequence that can be written: no domain or over 16, one that the profile lacks, one twice, lists that differ in length, a mark over 1, an entry constraint or EXRS on the first domain, bytes that aren't whole EXRS or aren't those counted, or a list over 1,024 bytes"),
    (36, None, 0x0780, "header of the message wrong: under 4 bytes, version not 1, type not 3 (PCReq), or a length that is not the message's or no multiple of 4"),
    (36, None, 0x2000, "header of the message wrong: under 4 bytes, version not 1, type not 4 (PCRep), or a length that is not the message's or no multiple of 4"),
    (37, None, 0x2780, "under 4 bytes left for an object, or its length under 4, no multiple of 4, past the message's end, or not that of its class (place: offset in the message)"),
    (37, None, 0x0800, "not a message that can be written: over 65,535 bytes, or a list whose length is no multiple of 4"),
    (37, None, 0x1000, "not a message that can be written: over 65,535 bytes, or METRIC lists that differ in length"),
    (38, None, 0x2780, "object of another class or type, with P set (place: offset in the message)"),
    (39, None, 0x2780, "no RP in the message"),
    (40, None, 0x0780, "no END-POINTS for IPv4 in the message"),
    (41, None, 0x2000, "neither ERO nor NO-PATH in the message"),
    (100, None, 0x0040, "not a series: a kind over 1, kinds and sizes that differ in count, sizes that don't add up to the buffers, or under five numbers for each call"),
];

pub(crate) fn meaning(call: Call, number: u32, place: u32) -> &'static str {
    let is_meant = |row: &&(u32, Option<u32>, u32, &str)| {
        row.0 == number && row.2 >> call as u32 & 1 == 1 && row.1.is_none_or(|at| at == place)
    };
    let unknown = "not a number of this call";
    ROWS.iter().find(is_meant).map_or(unknown, |row| row.3)
}
