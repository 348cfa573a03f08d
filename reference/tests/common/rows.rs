//! Profiles whose domains stand in a row, so that a path's total is known from
//! how they are made.

use super::{file, hop, plain_domains, B100, S};

/// The include list that goes on from the first of so many domains to the last.
fn crossing(domains: u16) -> Vec<u8> {
    let next = |i: u16| {
        let [high, low] = (64496 + i).to_be_bytes();
        [32, 4, high, low]
    };
    (1..domains).flat_map(next).collect()
}

fn domains_of(count: u16) -> Vec<Vec<u8>> {
    let as_numbers: Vec<u32> = (0..count).map(|i| 64496 + u32::from(i)).collect();
    plain_domains(&as_numbers)
}

/// One hop of each domain, from the node that the one before leads to.
fn hops_of(costs: &[u32]) -> Vec<Vec<u8>> {
    let last = costs.len() as u16 - 1;
    let each = (0..).zip(costs).map(|(i, &cost)| {
        let u = S + u32::from(i);
        hop(i, last.min(i + 1), u, u + 1, cost, B100)
    });
    each.collect()
}

/// The profile with a domain for each cost, at most 16, and the include list
/// that crosses it. There is one path, from S over the addresses after it.
pub fn row(costs: &[u32]) -> (Vec<u8>, Vec<u8>) {
    let count = costs.len() as u16;
    let profile = file(0, &domains_of(count), &hops_of(costs));
    (profile, crossing(count))
}

/// Its path, for so many domains.
pub fn row_path(domains: usize) -> Vec<u32> {
    (0..=domains as u32).map(|i| S + i).collect()
}

/// Costs that add up to `total`, as even as can be.
pub fn spread(total: u32, hops: usize) -> Vec<u32> {
    let hops = hops as u32;
    (0..hops)
        .map(|i| total / hops + u32::from(i < total % hops))
        .collect()
}

/// The greatest cost of a hop.
const MOST: u32 = 16_777_215;

/// Costs of 16 hops that add up to `total`. The first `low` of them have no more
/// than the others can't take, so that they can be raised.
fn low_at_first(total: u32, low: usize) -> Vec<u32> {
    let others = total.min((16 - low as u32) * MOST);
    [spread(total - others, low), spread(others, 16 - low)].concat()
}

/// A row of 16 domains with two entry nodes in the second: one on the way of
/// `total`, and one, S + 100, on a way that costs `more` than that.
pub fn two_ways(total: u32, more: u32) -> (Vec<u8>, Vec<u8>) {
    let costs = low_at_first(total, 1);
    let mut hops = hops_of(&costs);
    hops.push(hop(0, 1, S, S + 100, costs[0] + more, B100));
    hops.push(hop(1, 2, S + 100, S + 2, costs[1], B100));
    hops.sort();
    (file(0, &domains_of(16), &hops), crossing(16))
}

/// A row of 16 domains with an entry node of the second for each of `more`,
/// from S + 100 on, and no others. The way by it costs `total` and both numbers
/// more: one of the hop that leads to it, one of the hop that leaves it.
pub fn fan(total: u32, more: &[(u32, u32)]) -> (Vec<u8>, Vec<u8>) {
    let costs = low_at_first(total, 2);
    let mut hops = hops_of(&costs).split_off(2);
    for (i, &(into, out)) in (0..).zip(more) {
        let node = S + 100 + i;
        hops.push(hop(0, 1, S, node, costs[0] + into, B100));
        hops.push(hop(1, 2, node, S + 2, costs[1] + out, B100));
    }
    hops.sort();
    (file(0, &domains_of(16), &hops), crossing(16))
}
