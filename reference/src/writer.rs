//! Writing a sequence of domains as an include list, number 35.

use crate::exrs;
use crate::outcome::NotDone;
use crate::profile::{Domain, Profile, NO_AREA, OSPF};
use crate::request::MAX_LIST;
use crate::sequence::{Stop, MAX_DOMAINS};

/// The sequence that the slices stand for, or 35.
pub fn gather<'a>(
    profile: &Profile,
    domains: &[u16],
    pinned: &[u8],
    pins: &[u32],
    exrs_counts: &[u32],
    exrs: &'a [u8],
) -> Result<Vec<Stop<'a>>, NotDone> {
    let count = domains.len();
    let lengths = [pinned.len(), pins.len(), exrs_counts.len()];
    let counts_agree = lengths.iter().all(|&length| length == count);
    if !counts_agree || count == 0 || count > MAX_DOMAINS {
        return NotDone::at(35, 0);
    }
    let indexes_fit = domains
        .iter()
        .all(|&d| usize::from(d) < profile.domain_count());
    let marks_fit = pinned.iter().all(|&mark| mark <= 1);
    if !indexes_fit || !marks_fit || pinned[0] == 1 || any_twice(domains) {
        return NotDone::at(35, 0);
    }
    let Some(mut exrs) = exrs_of_each(exrs_counts, exrs) else {
        return NotDone::at(35, 0);
    };
    if !exrs[0].is_empty() {
        return NotDone::at(35, 0);
    }
    let stop = |i: usize| Stop {
        domain: usize::from(domains[i]),
        entry: (pinned[i] == 1).then_some(pins[i]),
        exrs: std::mem::take(&mut exrs[i]),
    };
    Ok((0..count).map(stop).collect())
}

/// The EXRS of each domain, if the counts add up to the bytes and each domain's
/// bytes are whole EXRS of right form by themselves.
fn exrs_of_each<'a>(counts: &[u32], bytes: &'a [u8]) -> Option<Vec<Vec<&'a [u8]>>> {
    let mut each = Vec::with_capacity(counts.len());
    let mut rest = bytes;
    for &count in counts {
        let (own, after) = rest.split_at_checked(count as usize)?;
        each.push(exrs::split(own)?);
        rest = after;
    }
    rest.is_empty().then_some(each)
}

fn any_twice(domains: &[u16]) -> bool {
    domains
        .iter()
        .enumerate()
        .any(|(i, d)| domains[..i].contains(d))
}

/// The include list that names `stops`, read back with the first as ingress; 35
/// if it would be longer than a list may be.
pub fn write(profile: &Profile, stops: &[Stop]) -> Result<Vec<u8>, NotDone> {
    let mut out = Vec::new();
    let mut as_before = None;
    for stop in stops {
        let domain = profile.domain(stop.domain);
        if let Some(address) = stop.entry {
            write_entry(&mut out, address);
        }
        stop.exrs.iter().for_each(|whole| out.extend(*whole));
        if as_before != Some(domain.as_number) {
            write_as(&mut out, domain.as_number);
        }
        if domain.kind != NO_AREA {
            write_area(&mut out, &domain);
        }
        as_before = Some(domain.as_number);
    }
    match out.len() <= MAX_LIST {
        true => Ok(out),
        false => NotDone::at(35, 0),
    }
}

fn write_entry(out: &mut Vec<u8>, address: u32) {
    out.extend([1, 8]);
    out.extend(address.to_be_bytes());
    out.extend([32, 0]);
}

fn write_as(out: &mut Vec<u8>, as_number: u32) {
    out.extend([5, 8, 0, 0]);
    out.extend(as_number.to_be_bytes());
}

fn write_area(out: &mut Vec<u8>, domain: &Domain) {
    let area = domain.area;
    if domain.kind == OSPF {
        out.extend([6, 8, 0, 0]);
        out.extend(area);
        return;
    }
    let padded = area.len().div_ceil(4) * 4;
    out.extend([7, 4 + padded as u8, area.len() as u8, 0]);
    out.extend(area);
    out.resize(out.len() + padded - area.len(), 0);
}
