//! Include lists whose meaning, or whose one fault, is known from the way they
//! were made, not from reading them.

use super::draft::Draft;
use super::exrs::for_route;
use super::exrs_damage::{fault_in_exrs, left_over, with_exrs_between};
use super::lists::{area_piece, as_piece, entry_node, nobodys_piece, route, Include, Piece};
use super::random::Random;
use super::shapes;

/// The domains, each with its entry constraint and the bytes of its EXRS, or
/// number and place.
pub type Reading = Result<Vec<(u16, Option<u32>, Vec<u8>)>, (u32, u32)>;

/// An include list and what reading it must give.
#[derive(Clone, Debug)]
pub struct PlannedInclude {
    pub profile: Vec<u8>,
    pub ingress: u16,
    pub include: Vec<u8>,
    pub expected: Reading,
}

/// A list without EXRS.
pub fn planned(random: &mut Random) -> PlannedInclude {
    let draft = shapes::valid(random);
    let route = planned_route(random, &draft, 1);
    let mut include = Include::new(&draft, route[0]);
    include.follow(random, &route);
    let fault = match random.below(3) {
        0 => None,
        1 => fault_in_form(random, &mut include.pieces),
        _ => fault_in_meaning(random, &mut include, &route),
    };
    finish(include, &route, fault)
}

/// A list with EXRS before some domains, or one left over.
pub fn planned_with_exrs(random: &mut Random) -> PlannedInclude {
    let draft = shapes::valid(random);
    let route = planned_route(random, &draft, 4);
    let mut include = Include::new(&draft, route[0]);
    let exrs = for_route(random, &draft, &route);
    let constrained = random.pick(&[0, 0, 1, 3]);
    let mut entries = vec![None];
    for pair in route.windows(2) {
        let entry = entry_node(random, &draft, pair[0], pair[1]);
        entries.push(random.chance(constrained, 6).then_some(entry));
    }
    include.spell(random, &route, &entries, &exrs);
    if random.chance(1, 10) {
        let bytes = random.pick(&[1_020, 1_024, 1_024, 1_024, 1_028]);
        include.fill_to(random, bytes);
    }
    let fault = match random.below(10) {
        0..=2 => None,
        3..=5 if route.len() > 1 => fault_in_exrs(random, &mut include.pieces),
        6 if route.len() > 1 => fault_in_form(random, &mut include.pieces),
        _ if route.len() == 1 => left_over(random, &mut include, &route),
        7 => fault_in_meaning(random, &mut include, &route),
        8 => with_exrs_between(random, &mut include, &route),
        _ => left_over(random, &mut include, &route),
    };
    finish(include, &route, fault)
}

/// A route of any length from `least` on where it can be, mostly along hops.
fn planned_route(random: &mut Random, draft: &Draft, least: usize) -> Vec<usize> {
    let ingress = random.below(draft.domains.len());
    let most = random.between(least, 20).min(16);
    match random.chance(1, 2) {
        true => route(random, draft, ingress, most),
        false => any_route(random, draft, ingress, most),
    }
}

/// The list, and what it was made for.
fn finish(include: Include, route: &[usize], fault: Option<(u32, usize)>) -> PlannedInclude {
    let bytes = include.pieces.concat();
    let stops = route.iter().zip(include.entries).zip(include.exrs);
    let sequence = stops.map(|((&domain, entry), exrs)| (domain as u16, entry, exrs));
    let expected = match fault {
        _ if bytes.len() > 1024 => Err((22, 0)),
        Some((number, offset)) => Err((number, offset as u32)),
        None => Ok(sequence.collect()),
    };
    PlannedInclude {
        profile: include.draft.encode(),
        ingress: route[0] as u16,
        include: bytes,
        expected,
    }
}

/// Different domains from `ingress` on, whether or not hops join them.
fn any_route(random: &mut Random, draft: &Draft, ingress: usize, most: usize) -> Vec<usize> {
    let others = shapes::shuffled(random, draft.domains.len());
    let others = others.into_iter().filter(|&domain| domain != ingress);
    [ingress].into_iter().chain(others).take(most).collect()
}

/// Where the piece `index` begins.
pub fn offset_of(pieces: &[Piece], index: usize) -> usize {
    pieces[..index].iter().map(Vec::len).sum()
}

/// Spoils one piece that is no EXRS; all before it are well formed.
fn fault_in_form(random: &mut Random, pieces: &mut Vec<Piece>) -> Option<(u32, usize)> {
    let plain = (0..pieces.len()).filter(|&index| pieces[index][0] != 33);
    let plain: Vec<usize> = plain.collect();
    if plain.is_empty() {
        return None;
    }
    let index = random.pick(&plain);
    let offset = offset_of(pieces, index);
    let piece = &mut pieces[index];
    let number = match random.below(5) {
        0 => {
            piece[0] = random.pick(&[0, 2, 3, 4, 8, 34, 127, 0x82, 0xFF]);
            24
        }
        1 => {
            piece[0] |= 0x80;
            27
        }
        2 => {
            piece[1] = piece[1].wrapping_add(random.pick(&[1, 4, 8, 252, 255, 100]));
            25
        }
        3 => {
            let left = random.between(1, piece.len() - 1);
            piece.truncate(left);
            pieces.truncate(index + 1);
            23
        }
        _ => field_out_of_range(random, piece)?,
    };
    Some((number, offset))
}

/// All but OSPF areas have fields that can be out of range.
fn field_out_of_range(random: &mut Random, piece: &mut Piece) -> Option<u32> {
    let area_length = usize::from(piece[2]);
    match piece[0] {
        1 => piece[6] = random.pick(&[0, 1, 31, 33, 255]),
        5 | 32 => *piece = nobodys_piece(random),
        7 if area_length % 4 != 0 && random.chance(1, 2) => {
            let last = piece.len() - 1;
            piece[random.between(4 + area_length, last)] = 0x40;
        }
        7 => piece[2] = random.pick(&[0, 14, 16, 255]),
        _ => return None,
    }
    Some(26)
}

/// Adds what goes wrong in meaning after a list that is right.
fn fault_in_meaning(
    random: &mut Random,
    include: &mut Include,
    route: &[usize],
) -> Option<(u32, usize)> {
    let offset = offset_of(&include.pieces, include.pieces.len());
    match random.below(8) {
        0 => unknown_as(random, include, offset),
        1 => unknown_area(random, include, offset),
        2 => as_of_several(random, include, offset),
        3 => {
            let earlier = &route[..route.len() - 1];
            let again = (!earlier.is_empty()).then(|| random.pick(earlier));
            name_wrongly(random, include, again, 30)
        }
        4..=5 if route.len() == 16 => {
            let fresh = (0..include.draft.domains.len()).find(|d| !route.contains(d));
            name_wrongly(random, include, fresh, 31)
        }
        6 => {
            include.constrain(random, 1);
            include.name_again(random);
            let second = offset_of(&include.pieces, include.pieces.len());
            include.constrain(random, 1);
            Some((32, second))
        }
        _ => {
            include.constrain(random, 2);
            include.name_again(random);
            Some((32, offset))
        }
    }
}

/// Names a domain that can't come here; the fault is at its last subobject.
fn name_wrongly(
    random: &mut Random,
    include: &mut Include,
    domain: Option<usize>,
    number: u32,
) -> Option<(u32, usize)> {
    include.name(random, domain?);
    Some((number, offset_of(&include.pieces, include.pieces.len() - 1)))
}

/// An AS the profile lacks: at the AS if it stands alone, else at the area.
fn unknown_as(random: &mut Random, include: &mut Include, offset: usize) -> Option<(u32, usize)> {
    let piece = as_piece(random, include.draft.lacked_as());
    let after = offset + piece.len();
    include.pieces.push(piece);
    if random.chance(1, 2) {
        return Some((28, offset));
    }
    include.pieces.push(area_piece(random, 1, &[0, 0, 0, 0]));
    Some((28, after))
}

/// An AS of the profile with an area it lacks.
fn unknown_area(random: &mut Random, include: &mut Include, offset: usize) -> Option<(u32, usize)> {
    let known = include
        .draft
        .domain(random.below(include.draft.domains.len()))
        .as_number;
    let piece = as_piece(random, known);
    let after = offset + piece.len();
    include.pieces.push(piece);
    // Generated IS-IS areas have no such byte.
    include.pieces.push(area_piece(random, 2, &[0x77; 5]));
    Some((28, after))
}

fn as_of_several(
    random: &mut Random,
    include: &mut Include,
    offset: usize,
) -> Option<(u32, usize)> {
    let several = first_as_of_several(include.draft)?;
    include.pieces.push(as_piece(random, several));
    Some((29, offset))
}

pub fn first_as_of_several(draft: &Draft) -> Option<u32> {
    let numbers = (0..draft.domains.len()).map(|i| draft.domain(i).as_number);
    numbers
        .into_iter()
        .find(|&as_number| draft.domains_of(as_number) > 1)
}
