//! A request, and the question it stands for once it is accepted.

use crate::check::check;
use crate::exclusion::{Exclusion, Stretch};
use crate::floats::{in_range, Exact};
use crate::outcome::NotDone;
use crate::profile::{Hop, Profile};
use crate::sequence::{read_meaning, Stop};
use crate::subobject::{read_form, List, Subobject};

pub const MAX_LIST: usize = 1024;

/// What `tree`, `first` and `next` take, as the C interface passes it.
#[derive(Clone, Copy, Debug)]
pub struct Request<'a> {
    pub profile: &'a [u8],
    pub ingress: u16,
    pub source: u32,
    pub destination: u32,
    pub include: &'a [u8],
    pub exclude: &'a [u8],
    pub bandwidth_bits: u32,
    pub bound_counts: bool,
    pub bound_bits: u32,
}

/// A request that no check before 33 refuses, with everything read.
#[derive(Clone, Debug)]
pub struct Question<'a> {
    pub profile: Profile<'a>,
    /// The domains D0 to Dk with their entry constraints and EXRS; never empty.
    pub stops: Vec<Stop<'a>>,
    /// 1 with every exclusion in force, 2 with those of X clear alone.
    pub round: u32,
    /// What is excluded in that round, anywhere.
    pub exclusion: Exclusion,
    /// The subobjects that the exclusion comes from.
    pub(crate) exclude: Vec<Subobject<'a>>,
    /// What is excluded in that round for each of D0 to Dk alone.
    pub stretches: Vec<Stretch>,
    /// The subobjects that these come from.
    pub(crate) exrs: Vec<Vec<Subobject<'a>>>,
    pub source: u32,
    pub destination: u32,
    pub bandwidth: Exact,
    /// None where the bound doesn't count.
    pub bound: Option<Exact>,
}

impl<'a> Question<'a> {
    /// All checks whose inputs a request has, in document 01's order.
    pub fn accept(request: &Request<'a>) -> Result<Question<'a>, NotDone> {
        let profile = check(request.profile)?;
        check_ingress(&profile, request.ingress)?;
        check_floats(request)?;
        check_list_length(request.include, 0)?;
        check_list_length(request.exclude, 1)?;
        let include = read_form(request.include, List::Include)?;
        let exclude = read_form(request.exclude, List::Exclude)?;
        let stops = read_meaning(&profile, usize::from(request.ingress), &include)?;
        let exrs: Vec<_> = stops.iter().map(Stop::exclusions).collect();
        Ok(Question {
            profile,
            round: 1,
            exclusion: Exclusion::new(&profile, &exclude),
            exclude,
            stretches: stretches(&profile, &stops, &exrs),
            exrs,
            stops,
            source: request.source,
            destination: request.destination,
            bandwidth: Exact::of_float(request.bandwidth_bits),
            bound: request
                .bound_counts
                .then(|| Exact::of_float(request.bound_bits)),
        })
    }

    /// k: how many domains follow the first.
    pub fn last(&self) -> usize {
        self.stops.len() - 1
    }

    /// How many addresses a path has.
    pub fn path_length(&self) -> usize {
        self.stops.len() + 1
    }

    /// Where step `i` of a path leads from and to: the next domain of the
    /// sequence, or the last domain itself for the last step.
    pub fn step_domains(&self, i: usize) -> (usize, usize) {
        let to = (i + 1).min(self.last());
        (self.stops[i].domain, self.stops[to].domain)
    }

    pub fn usable(&self, hop: &Hop) -> bool {
        Exact::of_float(hop.bandwidth) >= self.bandwidth
    }

    pub fn within_bound(&self, total: u32) -> bool {
        self.bound
            .is_none_or(|bound| Exact::of_whole(total) <= bound)
    }
}

/// What the EXRS of each domain of the sequence exclude.
pub fn stretches(profile: &Profile, stops: &[Stop], exrs: &[Vec<Subobject>]) -> Vec<Stretch> {
    let each = stops.iter().zip(exrs);
    each.map(|(stop, list)| Stretch::new(&profile.domain(stop.domain), list))
        .collect()
}

/// Reads an include list on its own, as `read_include` does.
pub fn accept_include<'a>(
    profile: &[u8],
    ingress: u16,
    include: &'a [u8],
) -> Result<Vec<Stop<'a>>, NotDone> {
    let profile = check(profile)?;
    check_ingress(&profile, ingress)?;
    check_list_length(include, 0)?;
    let form = read_form(include, List::Include)?;
    read_meaning(&profile, usize::from(ingress), &form)
}

fn check_ingress(profile: &Profile, ingress: u16) -> Result<(), NotDone> {
    if usize::from(ingress) < profile.domain_count() {
        Ok(())
    } else {
        NotDone::at(20, 0)
    }
}

fn check_floats(request: &Request) -> Result<(), NotDone> {
    if !in_range(request.bandwidth_bits) {
        return NotDone::at(21, 0);
    }
    // The bits of a bound that doesn't count aren't looked at.
    if request.bound_counts && !in_range(request.bound_bits) {
        return NotDone::at(21, 1);
    }
    Ok(())
}

pub fn check_list_length(list: &[u8], place: usize) -> Result<(), NotDone> {
    if list.len() <= MAX_LIST {
        Ok(())
    } else {
        NotDone::at(22, place)
    }
}
