//! An entry node found by its address: every number of entries that a domain
//! can have and each entry of them, with the tree and the paths that the costs
//! give.

use reference::Request;
use tests::by_hand::{ask, domain, file, hop, B100, S, SHORT, Z};
use tests::lists::{entry, short_as};
use tests::paths::find_first;
use tests::tree::{build, Entry, Tree};

const NEAR: u32 = 0xC633_6400; // 198.51.100.0
const FAR: u32 = 0xCB00_7100; // 203.0.113.0

/// Three domains. The second has 16 entry nodes, entry i with one hop, to
/// entry (i + turn) mod `count` of the third; from there one hop goes to Z and
/// two, at no cost, to the addresses beside Z.
struct Fan {
    count: u32,
    gap: u32,
    turn: u32,
}

impl Fan {
    fn near(&self, i: u32) -> u32 {
        NEAR + i * self.gap
    }

    fn far(&self, j: u32) -> u32 {
        FAR + j * self.gap
    }

    /// The entry of the third domain that entry i of the second goes to.
    fn behind(&self, i: u32) -> u32 {
        (i + self.turn) % self.count
    }

    /// What is left from entry j of the third domain, and from entry i of the
    /// second.
    fn left_far(&self, j: u32) -> u32 {
        1 + 97 * j
    }

    fn left_near(&self, i: u32) -> u32 {
        2000 * i + self.left_far(self.behind(i))
    }

    fn profile(&self) -> Vec<u8> {
        let domains = [64496, 64497, 64498].map(|as_number| domain(as_number, 0, &[]));
        let into = (0..16).map(|i| hop(0, 1, S, self.near(i), 1, B100));
        let between = (0..16).map(|i| {
            let head = self.far(self.behind(i));
            hop(1, 2, self.near(i), head, 2000 * i, B100)
        });
        let last = (0..self.count).flat_map(|j| {
            let to = |v, cost| hop(2, 2, self.far(j), v, cost, B100);
            [to(Z - 1, 0), to(Z, self.left_far(j)), to(Z + 1, 0)]
        });
        let hops: Vec<_> = into.chain(between).chain(last).collect();
        file(0, &domains, &hops)
    }

    fn tree(&self) -> Tree {
        let near = (0..16).map(|i| (1, self.near(i), Some(self.left_near(i))));
        let far = (0..self.count).map(|j| (2, self.far(j), Some(self.left_far(j))));
        let source: Entry = (0, S, Some(1 + self.left_near(0)));
        Tree {
            entries: [source].into_iter().chain(near).chain(far).collect(),
            hops_examined: 32 + 3 * self.count,
            round: 1,
        }
    }
}

#[test]
fn every_entry_of_parts_of_every_size() {
    let mut trees = 0;
    for count in 1..=16 {
        for gap in [1, 17] {
            for turn in 0..count {
                let fan = Fan { count, gap, turn };
                let which = format!("{count} entries, {gap} apart, turned by {turn}");
                let profile = fan.profile();
                assert_eq!(
                    build(&ask(&profile, &SHORT), &which),
                    Ok(fan.tree()),
                    "{which}"
                );
                each_path(&fan, &profile, &which);
                trees += 1;
            }
        }
    }
    assert_eq!(trees, 272);
}

/// The one path through each entry node of the second domain.
fn each_path(fan: &Fan, profile: &[u8], which: &str) {
    for i in 0..16 {
        let include = [entry(fan.near(i)), short_as(64497), short_as(64498)].concat();
        let request: Request = ask(profile, &include);
        let path = vec![S, fan.near(i), fan.far(fan.behind(i)), Z];
        let found = find_first(&request, format!("{which}, by entry {i}"));
        assert_eq!(found, Ok((path, 1 + fan.left_near(i), 1)), "{which}, {i}");
    }
}
