//! The six calls, as the C interface has them.

use crate::check::check;
use crate::floats::nearest_bits;
use crate::outcome::{settle, NotDone};
use crate::paths::ShortestPaths;
use crate::request::{accept_include, Question, Request};
use crate::sequence::Stop;
use crate::tree::Tree;
use crate::writer;

/// Checks a profile. `numbers`: place.
pub fn check_profile(profile: &[u8], numbers: &mut [u32; 1]) -> u32 {
    settle(check(profile).map(|_| [0]), numbers)
}

/// Reads an include list on its own. The EXRS of all domains stand back to back
/// in `exrs`; `exrs_counts` says how many bytes of them each domain has.
/// `numbers`: place, how many domains, how many bytes of EXRS.
pub fn read_include(
    profile: &[u8],
    ingress: u16,
    include: &[u8],
    domains: &mut [u16],
    pinned: &mut [u8],
    pins: &mut [u32],
    exrs_counts: &mut [u32],
    exrs: &mut [u8],
    numbers: &mut [u32; 3],
) -> u32 {
    let result = accept_include(profile, ingress, include).and_then(|stops| {
        let needed = stops.len();
        let lent = [domains.len(), pinned.len(), pins.len(), exrs_counts.len()];
        enough_room(&lent, needed)?;
        let bytes = stops.iter().map(Stop::exrs_bytes).sum();
        enough_room(&[exrs.len()], bytes)?;
        let mut at = 0;
        for (i, stop) in stops.iter().enumerate() {
            domains[i] = stop.domain as u16;
            pinned[i] = u8::from(stop.entry.is_some());
            pins[i] = stop.entry.unwrap_or(0);
            exrs_counts[i] = stop.exrs_bytes() as u32;
            for whole in &stop.exrs {
                exrs[at..at + whole.len()].copy_from_slice(whole);
                at += whole.len();
            }
        }
        Ok([0, needed as u32, bytes as u32])
    });
    settle(result, numbers)
}

/// Writes a sequence of domains, with the EXRS as `read_include` gives them.
/// `numbers`: place, how many bytes.
pub fn write_list(
    profile: &[u8],
    domains: &[u16],
    pinned: &[u8],
    pins: &[u32],
    exrs_counts: &[u32],
    exrs: &[u8],
    out: &mut [u8],
    numbers: &mut [u32; 2],
) -> u32 {
    let result = check(profile).and_then(|profile| {
        let stops = writer::gather(&profile, domains, pinned, pins, exrs_counts, exrs)?;
        let list = writer::write(&profile, &stops)?;
        enough_room(&[out.len()], list.len())?;
        out[..list.len()].copy_from_slice(&list);
        Ok([0, list.len() as u32])
    });
    settle(result, numbers)
}

/// Fills in the tree of the round that applies. `numbers`: place, how many
/// entries, hops examined, round.
pub fn tree(
    request: &Request,
    level: &mut [u32],
    address: &mut [u32],
    reachable: &mut [u8],
    cost: &mut [u32],
    numbers: &mut [u32; 4],
) -> u32 {
    let result = Question::accept(request).and_then(|mut question| {
        let tree = question.settle_round(Tree::new, Tree::total);
        let needed = tree.entry_count();
        enough_room(
            &[level.len(), address.len(), reachable.len(), cost.len()],
            needed,
        )?;
        let mut at = 0;
        for (i, entries) in tree.levels.iter().enumerate() {
            for entry in entries {
                level[at] = i as u32;
                address[at] = entry.address;
                reachable[at] = u8::from(entry.least.is_some());
                cost[at] = entry.least.unwrap_or(0);
                at += 1;
            }
        }
        // Each round up to this one goes over the same hops.
        let hops_examined = question.round * tree.hops_examined() as u32;
        Ok([0, needed as u32, hops_examined, question.round])
    });
    settle(result, numbers)
}

/// The first shortest path. `numbers`: place, total, the total's float bits,
/// round.
pub fn first(request: &Request, path: &mut [u32], numbers: &mut [u32; 4]) -> u32 {
    let result = Question::accept(request).and_then(|question| {
        enough_room(&[path.len()], question.path_length())?;
        let shortest = ShortestPaths::new(question);
        hand_out(shortest.first(), &shortest, path, 1)
    });
    settle(result, numbers)
}

/// The shortest path after a given list. `numbers` as for `first`.
pub fn next(request: &Request, given: &[u32], path: &mut [u32], numbers: &mut [u32; 4]) -> u32 {
    let result = Question::accept(request).and_then(|question| {
        if given.len() != question.path_length() {
            return NotDone::at(33, 0);
        }
        enough_room(&[path.len()], question.path_length())?;
        let shortest = ShortestPaths::new(question);
        hand_out(shortest.next(given), &shortest, path, 2)
    });
    settle(result, numbers)
}

/// Every lent buffer has the capacity (document 01's "room") that is needed.
pub fn enough_room(lent: &[usize], needed: usize) -> Result<(), NotDone> {
    if lent.iter().all(|&capacity| capacity >= needed) {
        Ok(())
    } else {
        NotDone::at(34, 0)
    }
}

/// Writes the path found among the shortest; without one, answers `none`.
fn hand_out(
    found: Option<Vec<u32>>,
    shortest: &ShortestPaths,
    path: &mut [u32],
    none: u32,
) -> Result<[u32; 4], NotDone> {
    let (Some(found), Some(total)) = (found, shortest.total()) else {
        return NotDone::at(none, 0);
    };
    path[..found.len()].copy_from_slice(&found);
    Ok([0, total, nearest_bits(total), shortest.round()])
}
