//! A profile's bytes, read as records.

pub const HEADER: usize = 12;
pub const RECORD: usize = 20;

/// Area kinds of a domain record.
pub const NO_AREA: u8 = 0;
pub const OSPF: u8 = 1;
pub const IS_IS: u8 = 2;

/// The bytes of one domain or hop record.
pub type Record = [u8; RECORD];

pub fn u16_at(bytes: &[u8], at: usize) -> u16 {
    u16::from_be_bytes([bytes[at], bytes[at + 1]])
}

pub fn u32_at(bytes: &[u8], at: usize) -> u32 {
    u32::from_be_bytes([bytes[at], bytes[at + 1], bytes[at + 2], bytes[at + 3]])
}

/// One domain: its AS and the area that tells it from others of that AS.
#[derive(Clone, Copy, Debug, PartialEq, Eq)]
pub struct Domain<'a> {
    pub as_number: u32,
    pub kind: u8,
    pub area: &'a [u8],
}

/// One hop: inside domain `from` one comes from `u` to `v`, and `v` is an
/// entry node of domain `to` (or an end point, where `to` is `from`).
#[derive(Clone, Copy, Debug, PartialEq, Eq)]
pub struct Hop {
    pub from: usize,
    pub to: usize,
    pub u: u32,
    pub v: u32,
    pub cost: u32,
    pub bandwidth: u32,
}

impl Hop {
    /// What the records of a profile ascend by: their first 12 bytes.
    pub fn key(&self) -> (usize, usize, u32, u32) {
        (self.from, self.to, self.u, self.v)
    }
}

/// A profile whose header and length are right; `check` makes these.
#[derive(Clone, Copy, Debug)]
pub struct Profile<'a> {
    pub live: bool,
    domains: &'a [Record],
    hops: &'a [Record],
}

impl<'a> Profile<'a> {
    /// `bytes` holds the header, then `domains` domain records, then hops.
    pub fn new(bytes: &'a [u8], live: bool, domains: usize) -> Profile<'a> {
        let (records, _) = bytes[HEADER..].as_chunks();
        let (domains, hops) = records.split_at(domains);
        Profile {
            live,
            domains,
            hops,
        }
    }

    pub fn domain_count(&self) -> usize {
        self.domains.len()
    }

    pub fn hop_count(&self) -> usize {
        self.hops.len()
    }

    /// The domain records' bytes, in turn.
    pub fn domain_records(&self) -> &'a [Record] {
        self.domains
    }

    /// Domain `index` of a checked profile.
    pub fn domain(&self, index: usize) -> Domain<'a> {
        domain_of(&self.domains[index])
    }

    pub fn domains(&self) -> impl Iterator<Item = Domain<'a>> {
        self.domains.iter().map(domain_of)
    }

    pub fn hops(&self) -> impl Iterator<Item = Hop> + 'a {
        self.hops.iter().map(hop_of)
    }

    /// The hops from one domain to another, by one pass over all records.
    pub fn hops_between(&self, from: usize, to: usize) -> impl Iterator<Item = Hop> + 'a {
        let pair = ((from as u32) << 16 | to as u32).to_be_bytes();
        let of_pair = self.hops.iter().filter(move |record| record[..4] == pair);
        of_pair.map(hop_of)
    }
}

pub fn domain_of(record: &Record) -> Domain<'_> {
    let length = usize::from(record[5]);
    Domain {
        as_number: u32_at(record, 0),
        kind: record[4],
        area: &record[6..6 + length],
    }
}

pub fn hop_of(record: &Record) -> Hop {
    Hop {
        from: usize::from(u16_at(record, 0)),
        to: usize::from(u16_at(record, 2)),
        u: u32_at(record, 4),
        v: u32_at(record, 8),
        cost: u32_at(record, 12),
        bandwidth: u32_at(record, 16),
    }
}
