//! A profile as a list of records, before it is written as bytes.

pub use crate::profile::Record;
use crate::profile::{domain_of, hop_of, Domain, Hop};
use std::collections::BTreeMap;

#[derive(Clone, Debug)]
pub struct Draft {
    pub live: bool,
    pub domains: Vec<Record>,
    pub hops: Vec<Record>,
}

impl Draft {
    /// The file, with a header that fits the records.
    pub fn encode(&self) -> Vec<u8> {
        let mut bytes = b"DSP\x00\x01".to_vec();
        bytes.push(u8::from(self.live));
        bytes.extend((self.domains.len() as u16).to_be_bytes());
        bytes.extend((self.hops.len() as u16).to_be_bytes());
        bytes.extend([0, 0]);
        for record in self.domains.iter().chain(&self.hops) {
            bytes.extend(record);
        }
        bytes
    }

    pub fn domain(&self, index: usize) -> Domain<'_> {
        domain_of(&self.domains[index])
    }

    pub fn hop(&self, index: usize) -> Hop {
        hop_of(&self.hops[index])
    }

    pub fn hop_list(&self) -> Vec<Hop> {
        self.hops.iter().map(hop_of).collect()
    }

    /// How many domains have this AS.
    pub fn domains_of(&self, as_number: u32) -> usize {
        let as_bytes = as_number.to_be_bytes();
        self.domains
            .iter()
            .filter(|record| record[..4] == as_bytes)
            .count()
    }

    /// The least AS number that none of its domains has, but 0, which no list may
    /// have either.
    pub fn lacked_as(&self) -> u32 {
        let mut numbers = 1..;
        let lacked = numbers.find(|&number| self.domains_of(number) == 0);
        lacked.expect("it has 64 domains at most")
    }
}

/// A domain record; `area` has at most 13 bytes.
pub fn domain_record(as_number: u32, kind: u8, area: &[u8]) -> Record {
    let mut record = [0; 20];
    record[..4].copy_from_slice(&as_number.to_be_bytes());
    record[4] = kind;
    record[5] = area.len() as u8;
    record[6..6 + area.len()].copy_from_slice(area);
    record
}

pub fn hop_record(hop: &Hop) -> Record {
    let mut record = [0; 20];
    record[..2].copy_from_slice(&(hop.from as u16).to_be_bytes());
    record[2..4].copy_from_slice(&(hop.to as u16).to_be_bytes());
    record[4..8].copy_from_slice(&hop.u.to_be_bytes());
    record[8..12].copy_from_slice(&hop.v.to_be_bytes());
    record[12..16].copy_from_slice(&hop.cost.to_be_bytes());
    record[16..].copy_from_slice(&hop.bandwidth.to_be_bytes());
    record
}

/// Collects hops so that the result is always in order and within limits.
#[derive(Default)]
pub struct Hops {
    hops: BTreeMap<(usize, usize, u32, u32), Hop>,
    entry_nodes: BTreeMap<(usize, usize), Vec<u32>>,
}

impl Hops {
    /// Adds a hop unless a limit would break.
    pub fn add(&mut self, hop: Hop) {
        if self.hops.len() >= 3000 {
            return;
        }
        let seen = self.entry_nodes.entry((hop.from, hop.to)).or_default();
        if !seen.contains(&hop.v) {
            if hop.from != hop.to && seen.len() == 16 {
                return;
            }
            seen.push(hop.v);
        }
        self.hops.insert(hop.key(), hop);
    }

    pub fn len(&self) -> usize {
        self.hops.len()
    }

    pub fn records(&self) -> Vec<Record> {
        self.hops.values().map(hop_record).collect()
    }
}
