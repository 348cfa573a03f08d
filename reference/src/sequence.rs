//! The meaning of an include list: the sequence of domains, with the entry
//! constraint and the EXRS of each. Numbers 28 to 32, and 42.

use crate::exrs;
use crate::outcome::NotDone;
use crate::profile::Profile;
use crate::subobject::{Body, Subobject};

pub const MAX_DOMAINS: usize = 16;

/// A domain of the sequence; its entry constraint (document 01's "pin"), the one
/// node through which it may be entered; and its EXRS, byte for byte.
#[derive(Clone, Debug, PartialEq, Eq)]
pub struct Stop<'a> {
    pub domain: usize,
    pub entry: Option<u32>,
    pub exrs: Vec<&'a [u8]>,
}

impl<'a> Stop<'a> {
    /// What its EXRS exclude; several add up.
    pub fn exclusions(&self) -> Vec<Subobject<'a>> {
        let each = self.exrs.iter();
        each.flat_map(|whole| exrs::exclusions(whole)).collect()
    }

    /// How many bytes its EXRS have.
    pub fn exrs_bytes(&self) -> usize {
        self.exrs.iter().map(|whole| whole.len()).sum()
    }
}

/// The sequence a well-formed include list stands for.
pub fn read_meaning<'a>(
    profile: &Profile,
    ingress: usize,
    list: &[Subobject<'a>],
) -> Result<Vec<Stop<'a>>, NotDone> {
    let mut reader = Reader {
        profile,
        current_as: profile.domain(ingress).as_number,
        stops: vec![Stop {
            domain: ingress,
            entry: None,
            exrs: Vec::new(),
        }],
        waiting: Waiting::default(),
    };
    for (index, subobject) in list.iter().enumerate() {
        reader.take(subobject, list.get(index + 1))?;
    }
    // Told last, so that anything wrong after what is left over goes first.
    match reader.waiting.left_over() {
        Some((offset, number)) => NotDone::at(number, offset),
        None => Ok(reader.stops),
    }
}

/// What no domain has taken yet.
#[derive(Default)]
struct Waiting<'a> {
    /// An entry constraint and its offset.
    entry: Option<(u32, usize)>,
    exrs: Vec<&'a [u8]>,
    /// The offset of the first of these.
    exrs_offset: usize,
}

impl Waiting<'_> {
    /// Offset and number of the first thing that waits.
    fn left_over(&self) -> Option<(usize, u32)> {
        let entry = self.entry.map(|(_, offset)| (offset, 32));
        let exrs = (!self.exrs.is_empty()).then_some((self.exrs_offset, 42));
        entry.into_iter().chain(exrs).min()
    }
}

struct Reader<'p, 'a> {
    profile: &'p Profile<'p>,
    current_as: u32,
    stops: Vec<Stop<'a>>,
    waiting: Waiting<'a>,
}

impl<'a> Reader<'_, 'a> {
    fn take(
        &mut self,
        subobject: &Subobject<'a>,
        after: Option<&Subobject>,
    ) -> Result<(), NotDone> {
        let offset = subobject.offset;
        match subobject.body {
            Body::Address { address, .. } => self.constrain(address, offset),
            Body::Exrs(whole) => {
                self.exclude(whole, offset);
                Ok(())
            }
            Body::AsNumber(as_number) => {
                self.current_as = as_number;
                let area_follows = after.is_some_and(|s| matches!(s.body, Body::Area { .. }));
                if area_follows {
                    return Ok(());
                }
                let domain = self.only_domain(offset)?;
                self.enter(domain, offset)
            }
            Body::Area { kind, area } => {
                let domain = self.area_domain(kind, area, offset)?;
                self.enter(domain, offset)
            }
        }
    }

    fn constrain(&mut self, address: u32, offset: usize) -> Result<(), NotDone> {
        if self.waiting.entry.is_some() {
            return NotDone::at(32, offset);
        }
        self.waiting.entry = Some((address, offset));
        Ok(())
    }

    fn exclude(&mut self, whole: &'a [u8], offset: usize) {
        if self.waiting.exrs.is_empty() {
            self.waiting.exrs_offset = offset;
        }
        self.waiting.exrs.push(whole);
    }

    /// The only domain of the current AS.
    fn only_domain(&self, offset: usize) -> Result<usize, NotDone> {
        let mut found = None;
        for (index, domain) in self.profile.domains().enumerate() {
            if domain.as_number != self.current_as {
                continue;
            }
            if found.is_some() {
                return NotDone::at(29, offset);
            }
            found = Some(index);
        }
        found.ok_or(NotDone {
            number: 28,
            place: offset as u32,
        })
    }

    /// The domain of the current AS that has this area.
    fn area_domain(&self, kind: u8, area: &[u8], offset: usize) -> Result<usize, NotDone> {
        let current_as = self.current_as;
        self.profile
            .domains()
            .position(|d| d.as_number == current_as && d.kind == kind && d.area == area)
            .ok_or(NotDone {
                number: 28,
                place: offset as u32,
            })
    }

    /// Goes on to `domain`. Naming the domain one is in adds nothing, and what
    /// waits goes on waiting over it.
    fn enter(&mut self, domain: usize, offset: usize) -> Result<(), NotDone> {
        if self.stops.last().is_some_and(|s| s.domain == domain) {
            return Ok(());
        }
        if self.stops.iter().any(|s| s.domain == domain) {
            return NotDone::at(30, offset);
        }
        if self.stops.len() == MAX_DOMAINS {
            return NotDone::at(31, offset);
        }
        let Waiting { entry, exrs, .. } = std::mem::take(&mut self.waiting);
        self.stops.push(Stop {
            domain,
            entry: entry.map(|(address, _)| address),
            exrs,
        });
        Ok(())
    }
}
