//! Requests with any number of things wrong, and the one that is told. The
//! expectations are typed from document 01, at the first place where a number
//! can stand and at a later one.

use crate::by_hand::{domain, file, hop, B1000};
use crate::lists::{entry, excluded, exrs, is_is, long_as, marked, ospf, short_as};
use reference::generate::Random;
use reference::Request;

/// Number and place, if anything is wrong.
pub type Told = Option<(u32, u32)>;

/// A part of a request, and what is told if nothing before it is wrong.
type Part<T> = (T, Told);

const SOURCE: u32 = 0xC000_0201;
const DESTINATION: u32 = 0xC000_0263;

fn node(i: u32) -> u32 {
    0xCB00_7100 + i
}

/// 16 AS with a domain each, then one with two areas.
fn eighteen_domains() -> Vec<Vec<u8>> {
    let alone = (64496..64512).map(|as_number| domain(as_number, 0, &[]));
    let areas = [0, 4].map(|area| domain(65536, 1, &[0, 0, 0, area]));
    alone.chain(areas).collect()
}

/// Hops from the first domain to the second, inside that, and on to the third.
fn nineteen_hops() -> Vec<Vec<u8>> {
    let into = (0..8).map(|i| hop(0, 1, SOURCE, node(i), i, B1000));
    let inside = (0..8).map(|i| hop(1, 1, node(i), DESTINATION, 9 - i, B1000));
    let on = (0..3).map(|i| hop(1, 2, node(i), node(i + 20), 1, B1000));
    into.chain(inside).chain(on).collect()
}

/// The profile of all these requests when it isn't the profile that is wrong.
pub fn profile() -> Vec<u8> {
    file(0, &eighteen_domains(), &nineteen_hops())
}

fn with_domain(index: usize, record: Vec<u8>) -> Vec<u8> {
    let mut domains = eighteen_domains();
    domains[index] = record;
    file(0, &domains, &nineteen_hops())
}

fn with_hop(index: usize, record: Vec<u8>) -> Vec<u8> {
    let mut hops = nineteen_hops();
    hops[index] = record;
    file(0, &eighteen_domains(), &hops)
}

/// The profile with the bytes from `at` on changed.
fn with_bytes(at: usize, bytes: &[u8]) -> Vec<u8> {
    let mut changed = profile();
    changed[at..at + bytes.len()].copy_from_slice(bytes);
    changed
}

/// The pair `from`, `to` with 17 entry nodes, after the first `kept` hops.
fn seventeen_nodes(kept: usize, from: u16, to: u16) -> Vec<u8> {
    let mut hops = nineteen_hops();
    hops.truncate(kept);
    hops.extend((0..17).map(|i| hop(from, to, SOURCE, node(i), 0, 0)));
    file(0, &eighteen_domains(), &hops)
}

fn profiles() -> Vec<Part<Vec<u8>>> {
    let whole = profile();
    let longer = [&whole[..], &[0]].concat();
    let bad_area = domain(64496, 0, &[1]);
    let free_node = 0x0A00_0001;
    [
        (Vec::new(), 10, 0),
        (whole[..11].to_vec(), 10, 0),
        (with_bytes(0, b"E"), 11, 0),
        (with_bytes(4, &[2]), 11, 0),
        (with_bytes(11, &[1]), 11, 0),
        (with_bytes(5, &[2]), 12, 0),
        (with_bytes(6, &[0, 0]), 12, 0),
        (with_bytes(6, &[0, 65]), 12, 0),
        (with_bytes(8, &[0x0B, 0xB9]), 12, 0),
        (whole[..12].to_vec(), 13, 0),
        (longer, 13, 0),
        (with_domain(0, bad_area.clone()), 14, 0),
        (with_domain(17, domain(65536, 3, &[])), 14, 17),
        (with_domain(0, domain(0, 0, &[])), 14, 0),
        (with_domain(15, domain(23_456, 0, &[])), 14, 15),
        (with_domain(1, domain(64496, 0, &[])), 15, 1),
        (with_domain(17, domain(65536, 1, &[0; 4])), 15, 17),
        (with_domain(0, domain(64495, 0, &[])), 16, 0),
        (with_domain(15, domain(64512, 0, &[])), 16, 15),
        (with_hop(0, hop(0, 1, free_node, 0, 0, 0)), 16, 18),
        (with_hop(18, hop(1, 2, node(2), u32::MAX, 0, 0)), 16, 36),
        (with_hop(0, hop(0, 1, SOURCE, node(0), 1 << 24, 0)), 17, 18),
        (with_hop(18, hop(1, 18, node(2), node(22), 0, 0)), 17, 36),
        (with_hop(1, hop(0, 1, SOURCE, node(0), 0, 0)), 18, 19),
        (with_hop(18, hop(1, 2, node(1), node(21), 0, 0)), 18, 36),
        (seventeen_nodes(0, 0, 1), 19, 18 + 16),
        (seventeen_nodes(16, 1, 17), 19, 18 + 32),
    ]
    .map(|(profile, number, place)| (profile, Some((number, place))))
    .into()
}

fn ingresses() -> Vec<Part<u16>> {
    vec![(0, None), (18, Some((20, 0)))]
}

fn bandwidths() -> Vec<Part<u32>> {
    let fine = [0, 0x7F7F_FFFF].map(|bits| (bits, None));
    let wrong = [0x7F80_0000, 0x7FC0_0000, 0x8000_0000];
    let wrong = wrong.map(|bits| (bits, Some((21, 0))));
    [&fine[..], &wrong].concat()
}

fn bounds() -> Vec<Part<(bool, u32)>> {
    let unseen = [0, 0x7F80_0000, u32::MAX].map(|bits| ((false, bits), None));
    let fine = [0, 0x7F7F_FFFF].map(|bits| ((true, bits), None));
    let wrong = [0x7F80_0000, 0x7F80_0001, 0x8000_0000];
    let wrong = wrong.map(|bits| ((true, bits), Some((21, 1))));
    [&unseen[..], &fine, &wrong].concat()
}

/// Subobjects that are wrong in form in both kinds of list.
fn wrong_in_form() -> Vec<(Vec<u8>, u32)> {
    vec![
        (vec![1, 8, 0], 23),
        (long_as(64497)[..7].to_vec(), 23),
        (vec![34, 4, 0, 0], 24),
        (vec![5, 4, 0, 0], 25),
        (vec![7, 8, 14, 0], 26),
        (vec![7, 8, 3, 0, 0x49, 0, 1, 1], 26),
        (excluded(7, 33), 26),
        (short_as(0), 26),
    ]
}

/// Each of `wrong` alone, and after one that is fine.
fn first_and_later(fine: &[u8], wrong: Vec<(Vec<u8>, u32)>) -> Vec<Part<Vec<u8>>> {
    let place = fine.len() as u32;
    let each = wrong.into_iter().flat_map(|(piece, number)| {
        let later = [fine, &piece].concat();
        [(piece, Some((number, 0))), (later, Some((number, place)))]
    });
    each.collect()
}

fn includes() -> Vec<Part<Vec<u8>>> {
    let fine = short_as(64497);
    let mut form = wrong_in_form();
    form.push((marked(long_as(64497)), 27));
    form.push((marked(vec![1, 8, 0, 0, 0, 0, 33, 0]), 27));
    form.push((excluded(7, 31), 26));
    form.push((vec![33, 4, 0, 0], 26));
    let nothing = exrs(&[marked(short_as(9))]);
    let meaning = vec![
        (short_as(9), 28),
        (ospf(0), 28),
        (is_is(&[0x49, 0, 1]), 28),
        (long_as(65536), 29),
        (entry(7), 32),
        (nothing.clone(), 42),
    ];
    let all_short: Vec<u8> = (64497..64512).flat_map(short_as).collect();
    let all_long: Vec<u8> = (64497..64512).flat_map(long_as).collect();
    let by_hand = [
        (vec![0; 1025], (22, 0)),
        (long_as(64497).repeat(129), (22, 0)),
        ([long_as(9), ospf(0)].concat(), (28, 8)),
        ([fine.clone(), long_as(65536), ospf(5)].concat(), (28, 12)),
        ([fine.clone(), short_as(64496)].concat(), (30, 4)),
        (
            [fine.clone(), fine.clone(), long_as(64496)].concat(),
            (30, 8),
        ),
        (
            [all_short.clone(), long_as(65536), ospf(4)].concat(),
            (31, 68),
        ),
        ([all_long, long_as(65536), ospf(0)].concat(), (31, 128)),
        (exrs(&[vec![34, 4, 0, 0]]), (24, 4)),
        ([fine.clone(), exrs(&[excluded(7, 33)])].concat(), (26, 8)),
        ([entry(7), nothing.clone()].concat(), (32, 0)),
        ([nothing, entry(7)].concat(), (42, 0)),
        ([entry(7), entry(7)].concat(), (32, 8)),
        (
            [fine.clone(), entry(7), fine.clone(), entry(8)].concat(),
            (32, 16),
        ),
    ];
    let accepted = [Vec::new(), fine.clone(), all_short].map(|list| (list, None));
    let refused = by_hand.map(|(list, told)| (list, Some(told)));
    [
        &accepted[..],
        &first_and_later(&fine, form),
        &first_and_later(&fine, meaning),
        &refused,
    ]
    .concat()
}

fn excludes() -> Vec<Part<Vec<u8>>> {
    let fine = marked(short_as(9));
    let mut form = wrong_in_form();
    let marked_too: Vec<_> = form
        .iter()
        .map(|(piece, number)| (marked(piece.clone()), *number))
        .collect();
    form.extend(marked_too);
    form.push((entry(7), 26));
    form.push((vec![1, 8, 0, 0, 0, 0, 32, 2], 26));
    form.push((exrs(&[short_as(9)]), 24));
    let accepted = [Vec::new(), fine.clone(), marked(excluded(7, 31))].map(|list| (list, None));
    let refused = [vec![0; 1025], fine.repeat(257)].map(|list| (list, Some((22, 1))));
    [&accepted[..], &first_and_later(&fine, form), &refused].concat()
}

/// When a check is made: document 01's order over the parts.
fn turn(list: usize, told: (u32, u32)) -> (usize, (u32, u32)) {
    let stage = match told.0 {
        22 => list,
        23..=27 => 2 + list,
        _ => 4,
    };
    (stage, told)
}

/// Of the two lists' faults the one that is told.
fn of_lists(include: Told, exclude: Told) -> Told {
    let faults = [
        include.map(|told| turn(0, told)),
        exclude.map(|told| turn(1, told)),
    ];
    faults
        .into_iter()
        .flatten()
        .min_by_key(|(stage, _)| *stage)
        .map(|(_, told)| told)
}

/// All parts but the profile.
struct Parts {
    ingresses: Vec<Part<u16>>,
    bandwidths: Vec<Part<u32>>,
    bounds: Vec<Part<(bool, u32)>>,
    includes: Vec<Part<Vec<u8>>>,
    excludes: Vec<Part<Vec<u8>>>,
}

impl Parts {
    fn counts(&self) -> [usize; 5] {
        [
            self.ingresses.len(),
            self.bandwidths.len(),
            self.bounds.len(),
            self.includes.len(),
            self.excludes.len(),
        ]
    }

    /// The request of one choice of each part, and what is told of them.
    fn combine<'a>(&'a self, profile: &'a [u8], which: [usize; 5]) -> (Request<'a>, Told) {
        let (ingress, bad_ingress) = self.ingresses[which[0]];
        let (bandwidth_bits, bad_bandwidth) = self.bandwidths[which[1]];
        let ((bound_counts, bound_bits), bad_bound) = self.bounds[which[2]];
        let (include, bad_include) = &self.includes[which[3]];
        let (exclude, bad_exclude) = &self.excludes[which[4]];
        let request = Request {
            profile,
            ingress,
            source: SOURCE,
            destination: DESTINATION,
            include,
            exclude,
            bandwidth_bits,
            bound_counts,
            bound_bits,
        };
        let bad_list = of_lists(*bad_include, *bad_exclude);
        let told = bad_ingress.or(bad_bandwidth).or(bad_bound).or(bad_list);
        (request, told)
    }
}

/// Every combination of the parts on the accepted profile, then every refused
/// profile with `others` combinations of the rest.
pub fn combinations(others: u64, mut check: impl FnMut(&Request, Told)) {
    let parts = Parts {
        ingresses: ingresses(),
        bandwidths: bandwidths(),
        bounds: bounds(),
        includes: includes(),
        excludes: excludes(),
    };
    let (accepted, counts) = (profile(), parts.counts());
    for code in 0..counts.iter().product() {
        let mut left: usize = code;
        let which = counts.map(|count| {
            let digit = left % count;
            left /= count;
            digit
        });
        let (request, told) = parts.combine(&accepted, which);
        check(&request, told);
    }
    for (seed, (profile, told)) in (0..).zip(&profiles()) {
        let random = &mut Random::new(seed, 106);
        for _ in 0..others {
            let which = counts.map(|count| random.below(count));
            let (request, later) = parts.combine(profile, which);
            check(&request, told.or(later));
        }
    }
}
