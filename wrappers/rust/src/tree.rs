//! The tree of a request.

use crate::refusal::unless_refused;
use crate::{calls, Call, Profile, Refusal, Request};
use std::net::Ipv4Addr;

const MOST_ENTRIES: usize = 241;

/// A node of the tree; the cost is 0 where the destination can't be reached.
#[derive(Clone, Copy, Debug, PartialEq, Eq)]
pub struct Entry {
    pub level: u32,
    pub address: Ipv4Addr,
    pub reachable: bool,
    pub cost: u32,
}

/// A request's tree, how many hop records were examined for it, and its round.
#[derive(Clone, Debug, PartialEq, Eq)]
pub struct Tree {
    pub entries: Vec<Entry>,
    pub tally: u32,
    pub round: u32,
}

impl Profile {
    /// The least cost from each entry node to the destination.
    pub fn tree(&self, request: &Request) -> Result<Tree, Refusal> {
        grown(Call::Tree, |room, numbers| {
            calls::tree(
                &self.0,
                request,
                &mut room.level,
                &mut room.address,
                &mut room.reachable,
                &mut room.cost,
                numbers,
            )
        })
    }
}

/// The buffers that a tree is stored in.
pub(crate) struct TreeRoom {
    pub level: [u32; MOST_ENTRIES],
    pub address: [u32; MOST_ENTRIES],
    pub reachable: [u8; MOST_ENTRIES],
    pub cost: [u32; MOST_ENTRIES],
}

/// The tree that a call stores.
pub(crate) fn grown(
    call: Call,
    make: impl FnOnce(&mut TreeRoom, &mut [u32; 4]) -> u32,
) -> Result<Tree, Refusal> {
    let mut room = TreeRoom {
        level: [0; MOST_ENTRIES],
        address: [0; MOST_ENTRIES],
        reachable: [0; MOST_ENTRIES],
        cost: [0; MOST_ENTRIES],
    };
    let mut numbers = [0; 4];
    let number = make(&mut room, &mut numbers);
    let [place, count, tally, round] = numbers;
    unless_refused(call, number, place)?;
    let entry = |i: usize| Entry {
        level: room.level[i],
        address: room.address[i].into(),
        reachable: room.reachable[i] == 1,
        cost: room.cost[i],
    };
    let entries = (0..count as usize).map(entry).collect();
    Ok(Tree {
        entries,
        tally,
        round,
    })
}
