//! The shortest paths (document 01's "listing") of the round that applies:
//! first, next and by position, without listing them. A step is tight when its cost and the least cost
//! after it make up the least cost before it; a shortest path is a walk over
//! tight steps, and any tight walk from the source can be completed.

use crate::request::Question;
use crate::tree::Tree;
use std::collections::BTreeMap;

#[derive(Clone, Debug)]
pub struct ShortestPaths {
    round: u32,
    source: u32,
    length: usize,
    total: Option<u32>,
    /// For each step, the tight next addresses from each address, ascending.
    tight: Vec<BTreeMap<u32, Vec<u32>>>,
    /// For each position, how many tight walks lead on from each address.
    counts: Vec<BTreeMap<u32, u128>>,
}

impl ShortestPaths {
    pub fn new(mut question: Question) -> ShortestPaths {
        let tree = question.settle_round(Tree::new, Tree::total);
        let tight = tight_steps(&question, &tree);
        let counts = walk_counts(&question, &tight);
        // All paths listed have the least total, so the bound admits all of
        // them or none.
        let total = tree.total().filter(|&t| question.within_bound(t));
        let length = question.path_length();
        ShortestPaths {
            round: question.round,
            source: question.source,
            length,
            total,
            tight,
            counts,
        }
    }

    /// The round that applies, 1 or 2, whether or not it has a path.
    pub fn round(&self) -> u32 {
        self.round
    }

    /// The total of every listed path; None if none is admissible.
    pub fn total(&self) -> Option<u32> {
        self.total
    }

    /// How many paths are listed.
    pub fn count(&self) -> u128 {
        match self.total {
            Some(_) => self.counts[0].get(&self.source).copied().unwrap_or(0),
            None => 0,
        }
    }

    /// The least path.
    pub fn first(&self) -> Option<Vec<u32>> {
        self.total?;
        let mut path = vec![self.source];
        self.complete(&mut path);
        Some(path)
    }

    /// The least path greater than `given`, which has a path's length.
    pub fn next(&self, given: &[u32]) -> Option<Vec<u32>> {
        self.total?;
        if self.source > given[0] {
            return self.first();
        }
        if self.source < given[0] {
            return None;
        }
        let mut path = vec![self.source];
        self.exceed(&mut path, given).then_some(path)
    }

    /// The path at `position`, counted from 0, found by skipping whole
    /// branches by their counts.
    pub fn at(&self, position: u128) -> Option<Vec<u32>> {
        if position >= self.count() {
            return None;
        }
        let mut left = position;
        let mut path = vec![self.source];
        while path.len() < self.length {
            for &v in self.choices(&path) {
                let branch = self.counts[path.len()][&v];
                if left < branch {
                    path.push(v);
                    break;
                }
                left -= branch;
            }
        }
        Some(path)
    }

    /// The tight next addresses after the last address of `path`.
    fn choices(&self, path: &[u32]) -> &[u32] {
        let here = path[path.len() - 1];
        self.tight[path.len() - 1]
            .get(&here)
            .map_or(&[], Vec::as_slice)
    }

    fn complete(&self, path: &mut Vec<u32>) {
        while path.len() < self.length {
            let least = self.choices(path)[0];
            path.push(least);
        }
    }

    /// Completes `path`, which agrees with `given` so far, to the least path
    /// greater than it; false if there is none. Only one branch per position
    /// agrees with `given`, so this never tries more than one branch deep.
    fn exceed(&self, path: &mut Vec<u32>, given: &[u32]) -> bool {
        let position = path.len();
        if position == self.length {
            return false;
        }
        for &v in self.choices(path) {
            if v < given[position] {
                continue;
            }
            path.push(v);
            if v > given[position] {
                self.complete(path);
                return true;
            }
            if self.exceed(path, given) {
                return true;
            }
            path.truncate(position);
        }
        false
    }
}

fn tight_steps(question: &Question, tree: &Tree) -> Vec<BTreeMap<u32, Vec<u32>>> {
    let mut tight = Vec::new();
    for (i, step) in tree.steps.iter().enumerate() {
        let mut onward: BTreeMap<u32, Vec<u32>> = BTreeMap::new();
        for hop in step.iter().filter(|hop| question.usable(hop)) {
            let rest = if i == question.last() {
                (hop.v == question.destination).then_some(0)
            } else {
                tree.least(i + 1, hop.v)
            };
            let through = rest.map(|r| r + hop.cost);
            if through.is_some() && through == tree.least(i, hop.u) {
                onward.entry(hop.u).or_default().push(hop.v);
            }
        }
        onward
            .values_mut()
            .for_each(|choices| choices.sort_unstable());
        tight.push(onward);
    }
    tight
}

/// At most 16 entry nodes for each of 15 domains: far below the limit of u128.
fn walk_counts(question: &Question, tight: &[BTreeMap<u32, Vec<u32>>]) -> Vec<BTreeMap<u32, u128>> {
    let mut counts = vec![BTreeMap::new(); tight.len() + 1];
    counts[tight.len()].insert(question.destination, 1u128);
    for i in (0..tight.len()).rev() {
        let here: BTreeMap<u32, u128> = tight[i]
            .iter()
            .map(|(&u, choices)| (u, choices.iter().map(|v| counts[i + 1][v]).sum()))
            .collect();
        counts[i] = here;
    }
    counts
}
