//! The backward tree of RFC 5441: for every entry node, the least cost from it
//! to the destination. Worked out from the last domain to the first, in the
//! round that the question is in.

use crate::profile::Hop;
use crate::request::Question;

/// An entry node of a domain of the sequence, and the least cost of a suffix
/// (document 01's "way") from it to the destination, if there is one.
#[derive(Clone, Copy, Debug, PartialEq, Eq)]
pub struct Entry {
    pub address: u32,
    pub least: Option<u32>,
}

#[derive(Clone, Debug)]
pub struct Tree {
    /// The hop records of each step, whatever their bandwidth or nodes.
    pub steps: Vec<Vec<Hop>>,
    /// The entries of each domain, ascending.
    pub levels: Vec<Vec<Entry>>,
}

impl Tree {
    pub fn new(question: &Question) -> Tree {
        let steps = hops_of_steps(question);
        let mut levels: Vec<Vec<Entry>> = Vec::new();
        // Built backwards: the level made last is the one after this.
        for i in (0..=question.last()).rev() {
            let after = levels.last();
            let level = entry_nodes(question, &steps, i)
                .into_iter()
                .map(|address| {
                    let least = least_cost(question, &steps[i], after, i, address);
                    Entry { address, least }
                })
                .collect();
            levels.push(level);
        }
        levels.reverse();
        Tree { steps, levels }
    }

    pub fn entry_count(&self) -> usize {
        self.levels.iter().map(Vec::len).sum()
    }

    /// Hops examined (document 01's "tally"), in this round alone.
    pub fn hops_examined(&self) -> usize {
        self.steps.iter().map(Vec::len).sum()
    }

    /// The least total of a path, whatever the bound.
    pub fn total(&self) -> Option<u32> {
        self.levels[0][0].least
    }

    /// The least cost of a suffix from `address` in domain `i`.
    pub fn least(&self, i: usize, address: u32) -> Option<u32> {
        least_in(&self.levels[i], address)
    }
}

/// No domain comes twice, so every hop record belongs to one step at most.
fn hops_of_steps(question: &Question) -> Vec<Vec<Hop>> {
    let mut steps = vec![Vec::new(); question.stops.len()];
    for hop in question.profile.hops() {
        for (i, step) in steps.iter_mut().enumerate() {
            if (hop.from, hop.to) == question.step_domains(i) {
                step.push(hop);
            }
        }
    }
    steps
}

/// The source for the first domain, then the different `v` that lead in.
fn entry_nodes(question: &Question, steps: &[Vec<Hop>], i: usize) -> Vec<u32> {
    if i == 0 {
        return vec![question.source];
    }
    let mut nodes: Vec<u32> = steps[i - 1].iter().map(|hop| hop.v).collect();
    nodes.sort_unstable();
    nodes.dedup();
    nodes
}

/// The least cost of a suffix from `address`, given the entries `after` it;
/// None stands for the destination after the last domain.
fn least_cost(
    question: &Question,
    step: &[Hop],
    after: Option<&Vec<Entry>>,
    i: usize,
    address: u32,
) -> Option<u32> {
    if !may_enter(question, i, address) {
        return None;
    }
    step.iter()
        .filter(|hop| hop.u == address && question.usable(hop))
        .filter_map(|hop| {
            let rest = match after {
                Some(entries) => least_in(entries, hop.v)?,
                None => arrived(question, hop.v)?,
            };
            Some(hop.cost + rest)
        })
        .min()
}

pub fn may_enter(question: &Question, i: usize, address: u32) -> bool {
    let stop = &question.stops[i];
    let entry_fits = stop.entry.is_none_or(|entry| entry == address);
    let barred = question.exclusion.domain(stop.domain)
        || question.exclusion.address(address)
        || question.stretches[i].bars(address);
    entry_fits && !barred
}

/// Nothing is left to pay at the destination, unless it is excluded.
pub fn arrived(question: &Question, address: u32) -> Option<u32> {
    let there = address == question.destination && !question.exclusion.address(address);
    there.then_some(0)
}

pub fn least_in(level: &[Entry], address: u32) -> Option<u32> {
    let index = level
        .binary_search_by_key(&address, |entry| entry.address)
        .ok()?;
    level[index].least
}
