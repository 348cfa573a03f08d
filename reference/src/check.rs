//! The checks of a profile, numbers 10 to 19, in document 01's order. One pass
//! over the bytes and one over the hop records; nothing is allocated.

use crate::floats;
use crate::outcome::NotDone;
use crate::profile::{u16_at, u32_at, Hop, Profile, Record, HEADER, IS_IS, NO_AREA, OSPF, RECORD};
use crate::reserved;

const MAX_DOMAINS: usize = 64;
const MAX_HOPS: usize = 3000;
/// What a wide IS-IS metric holds, 24 bits.
const MAX_COST: u32 = 16_777_215;
const MAX_ENTRY_NODES: usize = 16;

/// The profile, or the first thing wrong with it.
pub fn check(bytes: &[u8]) -> Result<Profile<'_>, NotDone> {
    let profile = header(bytes)?;
    domain_records(&profile)?;
    hop_records(&profile)?;
    entry_nodes(&profile)?;
    Ok(profile)
}

fn header(bytes: &[u8]) -> Result<Profile<'_>, NotDone> {
    if bytes.len() < HEADER {
        return NotDone::at(10, 0);
    }
    if bytes[..3] != *b"DSP" || u16_at(bytes, 3) != 1 || u16_at(bytes, 10) != 0 {
        return NotDone::at(11, 0);
    }
    let class = bytes[5];
    let domains = usize::from(u16_at(bytes, 6));
    let hops = usize::from(u16_at(bytes, 8));
    if class > 1 || !(1..=MAX_DOMAINS).contains(&domains) || hops > MAX_HOPS {
        return NotDone::at(12, 0);
    }
    if bytes.len() != HEADER + RECORD * (domains + hops) {
        return NotDone::at(13, 0);
    }
    Ok(Profile::new(bytes, class == 1, domains))
}

/// Each record passes 14, 15 and 16 before the next is looked at.
fn domain_records(profile: &Profile) -> Result<(), NotDone> {
    let mut before: Option<&Record> = None;
    for (place, record) in profile.domain_records().iter().enumerate() {
        if !domain_well_formed(record) {
            return NotDone::at(14, place);
        }
        if before.is_some_and(|b| !domain_may_follow(b, record)) {
            return NotDone::at(15, place);
        }
        if reserved::as_number(u32_at(record, 0)) == profile.live {
            return NotDone::at(16, place);
        }
        before = Some(record);
    }
    Ok(())
}

fn domain_well_formed(record: &Record) -> bool {
    let length = usize::from(record[5]);
    let length_fits = match record[4] {
        NO_AREA => length == 0,
        OSPF => length == 4,
        IS_IS => (1..=13).contains(&length),
        _ => false,
    };
    // The area bytes after the length and the last byte are one run of zeros.
    length_fits
        && record[6 + length..].iter().all(|&b| b == 0)
        && !reserved::nobodys(u32_at(record, 0))
}

/// Ascending records keep an AS together with its kind 0 first, so a kind 0
/// that rules the record out can only stand right before it.
fn domain_may_follow(before: &Record, record: &Record) -> bool {
    let same_as = before[..4] == record[..4];
    before < record && !(same_as && before[4] == NO_AREA)
}

/// Each record passes 17, 18 and 16 before the next is looked at.
fn hop_records(profile: &Profile) -> Result<(), NotDone> {
    let domains = profile.domain_count();
    let mut before: Option<Hop> = None;
    for (index, hop) in profile.hops().enumerate() {
        let place = domains + index;
        if !hop_well_formed(&hop, domains) {
            return NotDone::at(17, place);
        }
        if before.is_some_and(|b| b.key() >= hop.key()) {
            return NotDone::at(18, place);
        }
        if reserved::address(hop.u) == profile.live || reserved::address(hop.v) == profile.live {
            return NotDone::at(16, place);
        }
        before = Some(hop);
    }
    Ok(())
}

fn hop_well_formed(hop: &Hop, domains: usize) -> bool {
    hop.from < domains
        && hop.to < domains
        && hop.cost <= MAX_COST
        && floats::in_range(hop.bandwidth)
}

/// At most 16 different entry nodes from one domain to another. The records of
/// a pair stand together, so one small list of those seen is enough.
fn entry_nodes(profile: &Profile) -> Result<(), NotDone> {
    let mut pair = (usize::MAX, usize::MAX);
    let mut seen = [0u32; MAX_ENTRY_NODES];
    let mut count = 0;
    for (index, hop) in profile.hops().enumerate() {
        if (hop.from, hop.to) != pair {
            pair = (hop.from, hop.to);
            count = 0;
        }
        if hop.from == hop.to || seen[..count].contains(&hop.v) {
            continue;
        }
        if count == MAX_ENTRY_NODES {
            return NotDone::at(19, profile.domain_count() + index);
        }
        seen[count] = hop.v;
        count += 1;
    }
    Ok(())
}
