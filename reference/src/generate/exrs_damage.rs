//! What can be wrong with an EXRS: in its own form, in that of a subobject
//! inside, and in where it stands.

use super::exrs::{aimed, unwrap, wrap, LONGEST};
use super::list_plan::{first_as_of_several, offset_of};
use super::lists::{address_piece, area_piece, as_piece, nobodys_piece, Include, Piece};
use super::random::Random;
use super::shapes;

/// Number and offset.
type Fault = Option<(u32, usize)>;

/// Types that an exclude list doesn't have; an EXRS inside an EXRS is one.
const NOT_EXCLUDED: [u8; 8] = [0, 2, 4, 8, 33, 33, 34, 127];

/// Spoils one EXRS of a list that is right in form; none if it has none.
pub fn fault_in_exrs(random: &mut Random, pieces: &mut Vec<Piece>) -> Fault {
    let all = (0..pieces.len()).filter(|&index| pieces[index][0] == 33);
    let all: Vec<usize> = all.collect();
    if all.is_empty() {
        return None;
    }
    let index = random.pick(&all);
    let offset = offset_of(pieces, index);
    match random.chance(1, 3) {
        true => Some((fault_of_its_own(random, pieces, index), offset)),
        false => {
            let (number, inner) = fault_inside(random, &mut pieces[index])?;
            Some((number, offset + inner))
        }
    }
}

fn fault_of_its_own(random: &mut Random, pieces: &mut Vec<Piece>, index: usize) -> u32 {
    let after: usize = pieces[index..].iter().map(Vec::len).sum();
    match random.below(6) {
        0 => {
            pieces[index][0] |= 0x80;
            27
        }
        1 => {
            pieces[index][1] = random.below(4) as u8;
            25
        }
        2 => {
            pieces[index].truncate(4);
            pieces[index][1] = 4;
            26
        }
        3 if after < 255 => {
            pieces[index][1] = random.between(after + 1, 255) as u8;
            23
        }
        _ => {
            pieces.truncate(index + 1);
            let left = random.between(1, pieces[index].len() - 1);
            pieces[index].truncate(left);
            23
        }
    }
}

/// Spoils one subobject inside; the number, and its offset in the EXRS. None
/// where there is no place for what is wrong.
pub fn fault_inside(random: &mut Random, exrs: &mut Piece) -> Fault {
    let mut inside = unwrap(exrs);
    let at = random.below(inside.len());
    let offset = 4 + offset_of(&inside, at);
    let number = match random.below(5) {
        0 => {
            inside[at][0] = inside[at][0] & 0x80 | random.pick(&NOT_EXCLUDED);
            24
        }
        1 => {
            let more = random.pick(&[1, 4, 8, 252, 255, 100]);
            inside[at][1] = inside[at][1].wrapping_add(more);
            25
        }
        2 => {
            // It ends with the EXRS, whatever follows that.
            let left = random.between(1, inside[at].len() - 1);
            inside[at].truncate(left);
            inside.truncate(at + 1);
            23
        }
        3 => {
            let more = random.between(1, 3);
            let last = 4 + inside.concat().len();
            inside.push(random.bytes(more));
            *exrs = wrap(random, &inside);
            return Some((23, last));
        }
        _ => {
            inside.insert(at, field_out_of_range(random));
            26
        }
    };
    if 4 + inside.concat().len() > LONGEST {
        return None;
    }
    *exrs = wrap(random, &inside);
    Some((number, offset))
}

/// An exclusion with a field out of range, an AS that is nobody's among them, or
/// padding that isn't zero.
fn field_out_of_range(random: &mut Random) -> Piece {
    let x = random.pick(&[0, 0x80]);
    let node = random.bits();
    let mut piece = match random.below(6) {
        0 => address_piece(node, random.between(33, 255) as u8, 1),
        1 => address_piece(node, 32, random.pick(&[0, 2, 255])),
        2 => vec![7, 8, random.pick(&[0, 14, 255]), 0, 0, 0, 0, 0],
        3..=4 => nobodys_piece(random),
        _ => vec![7, 8, 3, 0, 0x49, 0, 1, 1],
    };
    piece[0] |= x;
    piece
}

/// EXRS with no new domain after them, and perhaps an entry constraint, in
/// either order: what is told is the first of them.
pub fn left_over(random: &mut Random, include: &mut Include, route: &[usize]) -> Fault {
    let mut first = None;
    let entry_at = random.below(5);
    let count = random.pick(&[1, 1, 2, 3]);
    for i in 0..count {
        if i == entry_at {
            first = first.or(Some((32, end(include))));
            include.constrain(random, 7);
        }
        first = first.or(Some((42, end(include))));
        push_any(random, include, route);
        if random.chance(1, 3) {
            include.name_again(random);
        }
    }
    if entry_at >= count && random.chance(1, 2) {
        include.constrain(random, 8);
    }
    first
}

/// An EXRS between what would be right one after the other, or wrong without
/// it: an AS and an area, two entry constraints, a domain that comes back.
pub fn with_exrs_between(random: &mut Random, include: &mut Include, route: &[usize]) -> Fault {
    let offset = end(include);
    // Few routes are so long that another domain is too many.
    let way = if route.len() == 16 {
        4
    } else {
        random.below(5)
    };
    match way {
        0..=1 => {
            let several = first_as_of_several(include.draft)?;
            let index = (0..include.draft.domains.len())
                .find(|&index| include.draft.domain(index).as_number == several)?;
            let domain = include.draft.domain(index);
            include.pieces.push(as_piece(random, several));
            push_any(random, include, route);
            let area = area_piece(random, domain.kind, domain.area);
            include.pieces.push(area);
            Some((29, offset))
        }
        2 => {
            let lacked = include.draft.lacked_as();
            include.pieces.push(as_piece(random, lacked));
            push_any(random, include, route);
            include.pieces.push(area_piece(random, 1, &[0; 4]));
            Some((28, offset))
        }
        3 => {
            include.constrain(random, 1);
            push_any(random, include, route);
            let second = end(include);
            include.constrain(random, 2);
            Some((32, second))
        }
        _ => {
            push_any(random, include, route);
            comes_back(random, include, route)
        }
    }
}

/// A domain that was left, or a seventeenth one, after an EXRS that waits.
fn comes_back(random: &mut Random, include: &mut Include, route: &[usize]) -> Fault {
    let fresh = shapes::shuffled(random, include.draft.domains.len())
        .into_iter()
        .find(|domain| !route.contains(domain))
        .filter(|_| route.len() == 16);
    let (domain, number) = match (fresh, route) {
        (Some(domain), _) => (domain, 31),
        (None, [first, _, ..]) => (*first, 30),
        _ => return Some((42, offset_of(&include.pieces, include.pieces.len() - 1))),
    };
    include.name(random, domain);
    Some((number, offset_of(&include.pieces, include.pieces.len() - 1)))
}

fn end(include: &Include) -> usize {
    offset_of(&include.pieces, include.pieces.len())
}

/// Any EXRS at the end of the list.
fn push_any(random: &mut Random, include: &mut Include, route: &[usize]) {
    let around = [route[route.len() - 1], route[0]];
    let piece = aimed(random, include.draft, &around, 1);
    include.pieces.push(piece);
}
