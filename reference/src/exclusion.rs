//! The meaning of the exclusions in force: domains and addresses a path must
//! not use, anywhere or on the stretch that an EXRS speaks of. What the profile
//! lacks spoils nothing, so no number belongs to it.

use crate::profile::{Domain, Profile};
use crate::subobject::{Body, Subobject};

#[derive(Clone, Debug)]
pub struct Exclusion {
    domains: Vec<bool>,
    prefixes: Vec<Prefix>,
}

/// What the EXRS of one domain of the sequence exclude: the domain itself, and
/// nodes that it must not be entered through.
#[derive(Clone, Debug)]
pub struct Stretch {
    whole: bool,
    prefixes: Vec<Prefix>,
}

/// The addresses that agree with `base` in the bits of `mask`.
#[derive(Clone, Copy, Debug)]
struct Prefix {
    base: u32,
    mask: u32,
}

impl Exclusion {
    pub fn new(profile: &Profile, list: &[Subobject]) -> Exclusion {
        let mut domains = vec![false; profile.domain_count()];
        let mut prefixes = Vec::new();
        for subobject in list {
            if let Body::Address { address, prefix } = subobject.body {
                prefixes.push(Prefix::new(address, prefix));
                continue;
            }
            for (excluded, domain) in domains.iter_mut().zip(profile.domains()) {
                *excluded |= names_domain(&subobject.body, &domain);
            }
        }
        Exclusion { domains, prefixes }
    }

    pub fn domain(&self, index: usize) -> bool {
        self.domains[index]
    }

    pub fn address(&self, address: u32) -> bool {
        self.prefixes.iter().any(|prefix| prefix.holds(address))
    }
}

impl Stretch {
    pub fn new(domain: &Domain, list: &[Subobject]) -> Stretch {
        let mut stretch = Stretch {
            whole: false,
            prefixes: Vec::new(),
        };
        for subobject in list {
            match subobject.body {
                Body::Address { address, prefix } => {
                    stretch.prefixes.push(Prefix::new(address, prefix));
                }
                _ => stretch.whole |= names_domain(&subobject.body, domain),
            }
        }
        stretch
    }

    /// The domain can't be entered through this node.
    pub fn bars(&self, entry: u32) -> bool {
        self.whole || self.prefixes.iter().any(|prefix| prefix.holds(entry))
    }
}

/// An AS names all its domains; an area names its domain in every AS.
fn names_domain(body: &Body, domain: &Domain) -> bool {
    match *body {
        Body::Address { .. } | Body::Exrs(_) => false,
        Body::AsNumber(as_number) => domain.as_number == as_number,
        Body::Area { kind, area } => domain.kind == kind && domain.area == area,
    }
}

impl Prefix {
    fn new(base: u32, length: u8) -> Prefix {
        // A shift by all 32 bits is what length 32 asks for.
        let after = u32::MAX.checked_shr(length.into()).unwrap_or(0);
        Prefix { base, mask: !after }
    }

    /// The bits after the prefix are ignored.
    fn holds(&self, address: u32) -> bool {
        (address ^ self.base) & self.mask == 0
    }
}
