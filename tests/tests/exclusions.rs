//! What an exclude list takes away, through tree: domains by AS and by area, and
//! nodes, one by one and together, demanded and desired, each with the tree that
//! the rule gives.

use reference::generate::Random;
use reference::Request;
use std::collections::BTreeSet;
use tests::by_hand::{ask, domain, file, hop, B1000};
use tests::compare::{seeds, Kinds};
use tests::lists::{entry, excluded, is_is, long_as, marked, ospf, short_as};
use tests::tree::{build, Tree};

// A row of eight domains with two entry nodes each.

/// AS, kind and area; the sequence crosses them in this order.
const ROW: [(u32, u8, &[u8]); 8] = [
    (64500, 1, &[0, 0, 0, 0]),
    (64500, 1, &[0, 0, 0, 4]),
    (64500, 2, &[0x49, 0, 1]),
    (64501, 1, &[0, 0, 0, 0]),
    (64501, 2, &[0x49, 0, 1]),
    (64501, 2, &[0x49, 0, 1, 0]),
    (64502, 0, &[]),
    (65537, 0, &[]),
];

const SOURCE: u32 = 0xCB00_7101;
const DESTINATION: u32 = 0xCB00_71FE;

/// The entry nodes of domain `i`: one in 192.0.2.0/24, one in 198.51.100.0/24.
fn nodes(i: usize) -> [u32; 2] {
    [0xC000_0200 + 16 * i as u32, 0xC633_6401 + 16 * i as u32]
}

/// What stands at place `i` of a path.
fn places(i: usize) -> Vec<u32> {
    match i {
        0 => vec![SOURCE],
        8 => vec![DESTINATION],
        _ => nodes(i).to_vec(),
    }
}

fn cost(i: usize, u: u32, v: u32) -> u32 {
    (u / 7 + v / 3 + i as u32) % 5
}

/// Every hop from one domain's nodes to the next's; and cheap ones that lead
/// past a domain or back.
fn row() -> Vec<u8> {
    let mut hops = Vec::new();
    for i in 0..8 {
        for u in places(i) {
            for v in places(i + 1) {
                let to = (i + 1).min(7);
                hops.push(hop(i as u16, to as u16, u, v, cost(i, u, v), B1000));
            }
            hops.push(hop(i as u16, (i as u16 + 3) % 8, u, DESTINATION, 0, B1000));
        }
    }
    hops.sort();
    let domains = ROW.map(|(as_number, kind, area)| domain(as_number, kind, area));
    file(0, &domains, &hops)
}

fn name((as_number, kind, area): (u32, u8, &[u8])) -> Vec<u8> {
    let area = match kind {
        0 => Vec::new(),
        1 => [&[6, 8, 0, 0], area].concat(),
        _ => is_is(area),
    };
    [long_as(as_number), area].concat()
}

/// What is taken away: domains by their place in the row, nodes, and all other
/// nodes of a domain that has an entry constraint.
#[derive(Clone, Default)]
struct Gone {
    domains: BTreeSet<usize>,
    nodes: BTreeSet<u32>,
    constraints: [Option<u32>; 8],
}

impl Gone {
    fn takes(&self, i: usize, node: u32) -> bool {
        self.nodes.contains(&node)
            || self.domains.contains(&i)
            || i < 8 && self.constraints[i].is_some_and(|only| only != node)
    }
}

/// The row's tree without what is gone, the last domain first.
fn tree_without(gone: &Gone) -> Tree {
    let mut after = vec![(DESTINATION, (!gone.takes(8, DESTINATION)).then_some(0))];
    let mut entries = Vec::new();
    for i in (0..8).rev() {
        let least = |u: u32| {
            let through = |&(v, rest): &(u32, Option<u32>)| Some(cost(i, u, v) + rest?);
            let ways = after.iter().filter_map(through);
            ways.min().filter(|_| !gone.takes(i, u))
        };
        let here: Vec<_> = places(i).into_iter().map(|u| (u, least(u))).collect();
        let level = here.iter().map(|&(u, least)| (i as u32, u, least));
        entries.splice(0..0, level);
        after = here;
    }
    Tree {
        entries,
        // 2 into the first domain's, 4 between two, 2 inside the last.
        hops_examined: 2 + 6 * 4 + 2,
        round: 1,
    }
}

/// A subobject, and the domains and nodes that it takes away.
struct Piece {
    bytes: Vec<u8>,
    domains: Vec<usize>,
    nodes: Vec<u32>,
}

fn pieces() -> Vec<Piece> {
    let of_domains = [
        (short_as(64500), &[0, 1, 2][..]),
        (long_as(64500), &[0, 1, 2]),
        (long_as(64501), &[3, 4, 5]),
        (short_as(64502), &[6]),
        (long_as(65537), &[7]),
        (ospf(0), &[0, 3]),
        (ospf(4), &[1]),
        (is_is(&[0x49, 0, 1]), &[2, 4]),
        (is_is(&[0x49, 0, 1, 0]), &[5]),
        // What the profile lacks: the low bytes of 65537, an area of the other
        // kind, one that is longer or shorter.
        (short_as(1), &[]),
        (long_as(64499), &[]),
        (ospf(0x4900_0100), &[]),
        (is_is(&[0, 0, 0, 4]), &[]),
        (is_is(&[0x49, 0, 1, 0, 0]), &[]),
        (is_is(&[0x49, 0]), &[]),
    ];
    let first: Vec<u32> = (1..8).map(|i| nodes(i)[0]).collect();
    let second: Vec<u32> = (1..8).map(|i| nodes(i)[1]).collect();
    let all = [&first[..], &second, &[SOURCE, DESTINATION]].concat();
    let of_nodes = [
        (excluded(nodes(3)[0], 32), vec![nodes(3)[0]]),
        (excluded(nodes(7)[1], 32), vec![nodes(7)[1]]),
        (excluded(nodes(1)[1] + 14, 28), vec![nodes(1)[1]]),
        (excluded(0xC000_02FF, 24), first),
        (excluded(0xC633_6400, 23), second),
        (excluded(SOURCE, 32), vec![SOURCE]),
        (excluded(DESTINATION, 32), vec![DESTINATION]),
        (excluded(0xCB00_7180, 25), vec![DESTINATION]),
        (excluded(0, 0), all),
        (excluded(nodes(3)[0] + 1, 32), vec![]),
        (excluded(0x7FFF_FFFF, 1), vec![]),
    ];
    let piece = |bytes, domains: &[usize], nodes| Piece {
        bytes,
        domains: domains.to_vec(),
        nodes,
    };
    let of_domains = of_domains.map(|(bytes, domains)| piece(bytes, domains, vec![]));
    let of_nodes = of_nodes.map(|(bytes, nodes)| piece(bytes, &[], nodes));
    of_domains.into_iter().chain(of_nodes).collect()
}

/// Subobjects with their X bit, and nodes that domains are to be entered by.
#[derive(Default)]
struct Asked<'a> {
    pieces: Vec<(&'a Piece, bool)>,
    constraints: [Option<u32>; 8],
}

impl Asked<'_> {
    fn exclude(&self) -> Vec<u8> {
        let bytes = |&(piece, desired): &(&Piece, bool)| match desired {
            true => marked(piece.bytes.clone()),
            false => piece.bytes.clone(),
        };
        self.pieces.iter().flat_map(bytes).collect()
    }

    /// The tree without what all pieces take away; if its source is unreachable
    /// and one has X set, the tree without what the others do, in round 2.
    fn expected(&self) -> Tree {
        let (mut all, mut demanded) = (Gone::default(), Gone::default());
        for gone in [&mut all, &mut demanded] {
            gone.constraints = self.constraints;
        }
        for &(piece, desired) in &self.pieces {
            add(&mut all, piece);
            if !desired {
                add(&mut demanded, piece);
            }
        }
        let first = tree_without(&all);
        let any_desired = self.pieces.iter().any(|piece| piece.1);
        if first.entries[0].2.is_some() || !any_desired {
            return first;
        }
        Tree {
            hops_examined: 2 * first.hops_examined,
            round: 2,
            ..tree_without(&demanded)
        }
    }
}

fn add(gone: &mut Gone, piece: &Piece) {
    gone.domains.extend(&piece.domains);
    gone.nodes.extend(&piece.nodes);
}

/// The row's tree is what is left.
#[track_caller]
fn check(profile: &[u8], asked: &Asked) -> Tree {
    let constraint = |i: usize| asked.constraints[i].map_or(Vec::new(), entry);
    let named = |i: usize| [constraint(i), name(ROW[i])].concat();
    let include: Vec<u8> = (1..8).flat_map(named).collect();
    let exclude = asked.exclude();
    let request = Request {
        source: SOURCE,
        destination: DESTINATION,
        exclude: &exclude,
        ..ask(profile, &include)
    };
    let which = format!("{include:02X?} without {exclude:02X?}");
    let built = build(&request, &which).expect("it is accepted");
    assert_eq!(built, asked.expected(), "{which}");
    built
}

#[test]
fn one_exclusion_and_every_two() {
    let (profile, pieces) = (row(), pieces());
    let mut rounds = [0; 3];
    let mut check = |pieces: &[(&Piece, bool)]| {
        let asked = Asked {
            pieces: pieces.to_vec(),
            ..Asked::default()
        };
        rounds[check(&profile, &asked).round as usize] += 1;
    };
    check(&[]);
    for one in &pieces {
        for x in [false, true] {
            check(&[(one, x)]);
            for other in &pieces {
                check(&[(one, x), (other, false)]);
                check(&[(one, x), (other, true)]);
            }
        }
    }
    let [_, first, second] = rounds;
    println!("\ntree, one exclusion and every two: {first} in round 1, {second} in round 2");
    assert!(first > 1_000 && second > 1_000);
}

/// Several exclusions in any order, among as many that take nothing away as
/// there is place for, and entry constraints.
#[test]
fn exclusions_together() {
    let (profile, pieces) = (row(), pieces());
    let mut kinds = Kinds::default();
    for seed in seeds(6_000) {
        let random = &mut Random::new(seed, 108);
        let mut asked = Asked::default();
        for i in 1..8 {
            if random.chance(1, 10) {
                let [first, second] = nodes(i);
                asked.constraints[i] = Some(random.pick(&[first, second, first, second, 7]));
            }
        }
        let nothing = [short_as(1), ospf(9), excluded(random.bits() >> 2, 32)].map(|bytes| Piece {
            bytes,
            domains: vec![],
            nodes: vec![],
        });
        let desired = random.pick(&[0, 1, 3]);
        for _ in 0..random.below(4) {
            let piece = &pieces[random.below(pieces.len())];
            asked.pieces.push((piece, random.chance(desired, 3)));
        }
        let fill = random.pick(&[0, 0, 1, 8, 100]);
        for _ in 0..fill {
            let piece = &nothing[random.below(3)];
            asked.pieces.push((piece, random.chance(desired, 3)));
        }
        for i in (1..asked.pieces.len()).rev() {
            asked.pieces.swap(i, random.below(i + 1));
        }
        let tree = check(&profile, &asked);
        let reached = tree.entries.iter().filter(|entry| entry.2.is_some());
        kinds.add(reachable_kind(tree.round, reached.count()));
    }
    let first = [0, 2, 4, 7, 14, 15].map(|reached| reachable_kind(1, reached));
    let second = [0, 2, 4, 7, 14, 15].map(|reached| reachable_kind(2, reached));
    kinds.cover("tree, exclusions together", &[first, second].concat());
}

fn reachable_kind(round: u32, reached: usize) -> String {
    format!("round {round}, {reached:>2} entries reachable")
}
