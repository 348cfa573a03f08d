//! The tree once more, the quick way that its times are held against: the same
//! checks, then one pass over the hop records for each round and each domain of
//! the sequence, the last domain first.

use crate::calls::enough_room;
use crate::outcome::settle;
use crate::request::{Question, Request};
use crate::tree::{arrived, least_in, may_enter, Entry};

/// Fills in the tree; arguments and answers are those of `tree`.
pub fn one_pass_tree(
    request: &Request,
    level: &mut [u32],
    address: &mut [u32],
    reachable: &mut [u8],
    cost: &mut [u32],
    numbers: &mut [u32; 4],
) -> u32 {
    let result = Question::accept(request).and_then(|mut question| {
        let bandwidth = f32::from_bits(request.bandwidth_bits);
        let (levels, hops_examined) = question.settle_round(
            |question| levels(question, bandwidth),
            |(levels, _)| levels[0][0].least,
        );
        let needed = levels.iter().map(Vec::len).sum();
        enough_room(
            &[level.len(), address.len(), reachable.len(), cost.len()],
            needed,
        )?;
        let numbered = (0..).zip(&levels);
        let entries = numbered.flat_map(|(i, level)| level.iter().map(move |entry| (i, entry)));
        for (at, (i, entry)) in entries.enumerate() {
            level[at] = i;
            address[at] = entry.address;
            reachable[at] = u8::from(entry.least.is_some());
            cost[at] = entry.least.unwrap_or(0);
        }
        // A round before this one went over the same hops.
        let hops_examined = question.round * hops_examined;
        Ok([0, needed as u32, hops_examined, question.round])
    });
    settle(result, numbers)
}

/// The entries of each domain, and the hops examined, in one round.
fn levels(question: &Question, bandwidth: f32) -> (Vec<Vec<Entry>>, u32) {
    let mut levels = Vec::with_capacity(question.stops.len());
    let mut hops_examined = 0;
    // Where a suffix begins in the domain after this, and at what least cost.
    let mut onward: Vec<Entry> = Vec::new();
    for i in (0..=question.last()).rev() {
        let (from, to) = question.step_domains(i);
        let mut pass = Pass {
            question,
            i,
            onward: &onward,
            entries: Vec::new(),
            starts: Vec::new(),
        };
        for hop in question.profile.hops_between(from, to) {
            hops_examined += 1;
            let rest = pass.reach(hop.v);
            if f32::from_bits(hop.bandwidth) >= bandwidth {
                pass.start(hop.u, rest.map(|rest| rest + hop.cost));
            }
        }
        let Pass {
            entries, starts, ..
        } = pass;
        if i < question.last() {
            levels.push(entries);
        }
        onward = starts;
    }
    levels.push(vec![Entry {
        address: question.source,
        least: entered(question, 0, question.source, &onward),
    }]);
    levels.reverse();
    (levels, hops_examined)
}

/// One pass: the hops from domain `i` of the sequence to the one after it.
struct Pass<'a> {
    question: &'a Question<'a>,
    i: usize,
    onward: &'a [Entry],
    /// The entries of the domain after it so far, ascending.
    entries: Vec<Entry>,
    /// Where a suffix begins in domain `i` so far; ascending, as the hops are.
    starts: Vec<Entry>,
}

impl Pass<'_> {
    /// The least cost from `v` on; an entry is looked into only once.
    fn reach(&mut self, v: u32) -> Option<u32> {
        if self.i == self.question.last() {
            return arrived(self.question, v);
        }
        let found = self.entries.binary_search_by_key(&v, |entry| entry.address);
        let index = found.unwrap_or_else(|index| {
            let least = entered(self.question, self.i + 1, v, self.onward);
            self.entries.insert(index, Entry { address: v, least });
            index
        });
        self.entries[index].least
    }

    /// A suffix from `u`, if it is one.
    fn start(&mut self, u: u32, total: Option<u32>) {
        let Some(total) = total else { return };
        match self.starts.last_mut() {
            Some(last) if last.address == u => last.least = last.least.min(Some(total)),
            _ => self.starts.push(Entry {
                address: u,
                least: Some(total),
            }),
        }
    }
}

/// The least cost from a node through which domain `i` is entered.
fn entered(question: &Question, i: usize, node: u32, onward: &[Entry]) -> Option<u32> {
    least_in(onward, node).filter(|_| may_enter(question, i, node))
}
