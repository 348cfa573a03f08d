//! The tree: the C call, and one tree asked of both programs.

use crate::by_hand::desired::some_desired;
use crate::compare::{compare, Answer, Case, Lent};
use crate::request::{call, declare};
use reference::Request;
use std::fmt::Display;

declare!(yq_tree(
    level: *mut u32,
    level_count: usize,
    address: *mut u32,
    address_count: usize,
    reachable: *mut u8,
    reachable_count: usize,
    cost: *mut u32,
    cost_count: usize,
    numbers: *mut u32,
));

/// Fills in the tree of the round that applies. `numbers`: place, how many
/// entries, hops examined, round.
pub fn tree(
    request: &Request,
    level: &mut [u32],
    address: &mut [u32],
    reachable: &mut [u8],
    cost: &mut [u32],
    numbers: &mut [u32; 4],
) -> u32 {
    // SAFETY: the call reads the request's lists and writes no further than
    // the four buffers and the array's four numbers.
    unsafe {
        call!(yq_tree(
            request,
            level.as_mut_ptr(),
            level.len(),
            address.as_mut_ptr(),
            address.len(),
            reachable.as_mut_ptr(),
            reachable.len(),
            cost.as_mut_ptr(),
            cost.len(),
            numbers.as_mut_ptr(),
        ))
    }
}

/// The most entries a tree can have: the source and 15 times 16 entry nodes.
pub const MOST_ENTRIES: usize = 241;

/// What `tree` is lent: levels, addresses, reachabilities, costs.
pub type Buffers = (Lent<u32>, Lent<u32>, Lent<u8>, Lent<u32>);

/// Buffers of these capacities, filled with what no tree writes.
pub fn buffers([level, address, reachable, cost]: [usize; 4]) -> Buffers {
    (
        Lent::new(&vec![0xAAAA_AAAA; level]),
        Lent::new(&vec![0xAAAA_AAAA; address]),
        Lent::new(&vec![0xAA; reachable]),
        Lent::new(&vec![0xAAAA_AAAA; cost]),
    )
}

/// Level, address, and the least cost if the entry is reachable.
pub type Entry = (u32, u32, Option<u32>);

#[derive(Clone, Debug, PartialEq, Eq)]
pub struct Tree {
    pub entries: Vec<Entry>,
    pub hops_examined: u32,
    pub round: u32,
}

/// The tree, or number and place.
pub type Built = Result<Tree, (u32, u32)>;

/// A request and the buffers for its tree.
pub struct TreeCase<'a> {
    pub request: Request<'a>,
    pub buffers: Buffers,
}

impl Case for TreeCase<'_> {
    type Call = fn(&Request, &mut [u32], &mut [u32], &mut [u8], &mut [u32], &mut [u32; 4]) -> u32;
    type Answer = Answer<4, Buffers>;

    const LIBRARY: Self::Call = tree;
    const REFERENCE: Self::Call = reference::tree;

    fn answer(&self, call: Self::Call) -> Self::Answer {
        Answer::of(
            self.buffers.clone(),
            |(level, address, reachable, cost), numbers| {
                call(
                    &self.request,
                    level.buffer(),
                    address.buffer(),
                    reachable.buffer(),
                    cost.buffer(),
                    numbers,
                )
            },
        )
    }
}

impl TreeCase<'_> {
    /// The tree, or number and place, the same from both programs and held to
    /// what is true of every tree.
    #[track_caller]
    pub fn build(&self, which: impl Display) -> Built {
        let answer = compare(self, &which);
        let [place, count, hops_examined, round] = answer.numbers;
        let count = count as usize;
        let (level, address, reachable, cost) = &answer.buffers;
        let kept = level.kept_past(count, &self.buffers.0)
            && address.kept_past(count, &self.buffers.1)
            && reachable.kept_past(count, &self.buffers.2)
            && cost.kept_past(count, &self.buffers.3);
        assert!(kept, "{which}: wrote more than the result: {answer:?}");
        if answer.number != 0 {
            let numbers = (count, hops_examined, round);
            assert_eq!(numbers, (0, 0, 0), "{which}: {answer:?}");
            return Err(answer.verdict());
        }
        let entry = |i: usize| {
            let least = match (reachable.contents()[i], cost.contents()[i]) {
                (0, 0) => None,
                (1, cost) => Some(cost),
                _ => panic!("{which}: not a mark and its cost at {i}: {answer:?}"),
            };
            (level.contents()[i], address.contents()[i], least)
        };
        let tree = Tree {
            entries: (0..count).map(entry).collect(),
            hops_examined,
            round,
        };
        let shape = place == 0 && self.shaped(&tree);
        assert!(shape, "{which}: not the shape of a tree: {answer:?}");
        Ok(tree)
    }

    /// The source, then the levels in order and ascending in each, at most 16
    /// to a level; in each round no more hops examined than the profile has,
    /// and a second round only where an exclusion is desired.
    fn shaped(&self, tree: &Tree) -> bool {
        let (entries, profile) = (&tree.entries, self.request.profile);
        let hops = u32::from(profile[8]) << 8 | u32::from(profile[9]);
        let ascending = entries
            .windows(2)
            .all(|pair| (pair[0].0, pair[0].1) < (pair[1].0, pair[1].1));
        let later = entries.get(1).is_none_or(|second| second.0 > 0);
        let wide = entries
            .windows(17)
            .all(|window| window[0].0 != window[16].0);
        entries
            .first()
            .is_some_and(|&(level, address, _)| (level, address) == (0, self.request.source))
            && ascending
            && later
            && wide
            && tree.hops_examined <= tree.round * hops
            && (tree.round == 1
                || tree.round == 2
                    && tree.hops_examined.is_multiple_of(2)
                    && some_desired(&self.request))
    }
}

/// A tree with capacity to spare.
#[track_caller]
pub fn build(request: &Request, which: impl Display) -> Built {
    let case = TreeCase {
        request: *request,
        buffers: buffers([MOST_ENTRIES + 1; 4]),
    };
    case.build(which)
}
