//! EXRS whose form is right, aimed at what they may hit and at what they would
//! hit only if they spoke of more than one stretch.

use super::draft::Draft;
use super::lists::{
    address_piece, area_piece, as_piece, entry_node, exclude_piece, ignored, lacked, Include, Piece,
};
use super::random::Random;
use crate::profile::NO_AREA;

/// The most bytes that an EXRS of right form has: each exclusion has a multiple
/// of four.
pub const LONGEST: usize = 252;

/// An EXRS with these subobjects inside, and anything in its reserved bytes.
pub fn wrap(random: &mut Random, inside: &[Piece]) -> Piece {
    let inside = inside.concat();
    let reserved = [ignored(random), ignored(random)];
    [&[33, 4 + inside.len() as u8], &reserved[..], &inside].concat()
}

/// The subobjects inside an EXRS of right form.
pub fn unwrap(exrs: &Piece) -> Vec<Piece> {
    let mut pieces = Vec::new();
    let mut rest = &exrs[4..];
    while !rest.is_empty() {
        let (piece, after) = rest.split_at(usize::from(rest[1]));
        pieces.push(piece.to_vec());
        rest = after;
    }
    pieces
}

/// X set or clear.
pub fn with_x(mut piece: Piece, desired: bool) -> Piece {
    piece[0] = piece[0] & 0x7F | u8::from(desired) << 7;
    piece
}

/// An EXRS for the domain `route[at]`; mostly a short one.
pub fn aimed(random: &mut Random, draft: &Draft, route: &[usize], at: usize) -> Piece {
    let most = random.pick(&[1, 1, 2, 3, 5]);
    let mut inside = vec![aimed_inside(random, draft, route, at)];
    while inside.len() < most {
        inside.push(aimed_inside(random, draft, route, at));
    }
    if random.chance(1, 24) {
        fill_up(random, draft, &mut inside);
    }
    wrap(random, &inside)
}

/// Adds what hits nothing until the EXRS is as long as it may be.
fn fill_up(random: &mut Random, draft: &Draft, inside: &mut Vec<Piece>) {
    loop {
        let piece = lacked(random, draft);
        if 4 + inside.concat().len() + piece.len() > LONGEST {
            break;
        }
        inside.push(piece);
    }
    while 4 + inside.concat().len() < LONGEST {
        inside.push(SHORT.to_vec());
    }
}

/// The shortest exclusion, of an AS that hardly any profile made here has.
const SHORT: [u8; 4] = [32, 4, 0x7F, 0xFF];

/// EXRS that hit nothing and have just so many bytes, with X set in some; none
/// where that can't be.
pub fn filling(random: &mut Random, bytes: usize) -> Option<Vec<Piece>> {
    let mut left = bytes;
    let mut all = Vec::new();
    while left > 0 {
        if left < 8 || left % 4 != 0 {
            return None;
        }
        // What is left over is room for another or none.
        let most = left.min(LONGEST);
        let length = if left - most == 4 { most - 4 } else { most };
        let desired = random.chance(1, 2);
        let piece = with_x(SHORT.to_vec(), desired);
        let inside = vec![piece; length / 4 - 1];
        all.push(wrap(random, &inside));
        left -= length;
    }
    Some(all)
}

/// One exclusion: the entry node, the domain, what hits another domain of the
/// route or an end of it, or anything.
fn aimed_inside(random: &mut Random, draft: &Draft, route: &[usize], at: usize) -> Piece {
    let other = random.below(route.len());
    let piece = match random.below(10) {
        0..=2 => entry_piece(random, draft, route[at - 1], route[at]),
        3..=4 => domain_piece(random, draft, route[at]),
        5 => domain_piece(random, draft, route[other]),
        6 => {
            let (from, to) = (route[other.saturating_sub(1)], route[other]);
            entry_piece(random, draft, from, to)
        }
        7 => lacked(random, draft),
        _ => exclude_piece(random, draft),
    };
    let desired = random.chance(1, 2);
    with_x(piece, desired)
}

/// An entry node of the pair, or a block around it.
pub fn entry_piece(random: &mut Random, draft: &Draft, from: usize, to: usize) -> Piece {
    let node = entry_node(random, draft, from, to);
    let prefix = random.pick(&[32, 32, 32, 32, 31, 30, 24, 0]);
    let noise = u32::MAX.checked_shr(prefix.into()).unwrap_or(0) & random.bits();
    address_piece(node ^ noise, prefix, 1)
}

/// A domain by its AS or its area.
pub fn domain_piece(random: &mut Random, draft: &Draft, index: usize) -> Piece {
    let domain = draft.domain(index);
    match domain.kind != NO_AREA && random.chance(1, 2) {
        true => area_piece(random, domain.kind, domain.area),
        false => as_piece(random, domain.as_number),
    }
}

/// EXRS for some domains of a route, none for the first; for fewer of a long one,
/// so that a list mostly isn't too long.
pub fn for_route(random: &mut Random, draft: &Draft, route: &[usize]) -> Vec<Vec<Piece>> {
    let often = match route.len() > 8 {
        true => random.pick(&[1, 1, 2]),
        false => random.pick(&[1, 2, 3, 5]),
    };
    let mut all = vec![Vec::new()];
    for at in 1..route.len() {
        let count = match random.chance(often, 6) {
            true => random.pick(&[1, 1, 1, 2, 3]),
            false => 0,
        };
        let each = (0..count).map(|_| aimed(random, draft, route, at));
        all.push(each.collect());
    }
    if route.len() > 1 && all.concat().is_empty() {
        let at = random.between(1, route.len() - 1);
        all[at].push(aimed(random, draft, route, at));
    }
    all
}

impl Include<'_> {
    /// The way to all of `route` after the ingress, with these entry constraints
    /// and EXRS in any order, and names that add nothing between them.
    pub fn spell(
        &mut self,
        random: &mut Random,
        route: &[usize],
        entries: &[Option<u32>],
        exrs: &[Vec<Piece>],
    ) {
        let again = random.pick(&[0, 0, 1, 3]);
        for at in 1..route.len() {
            let mut waiting = exrs[at].clone();
            if let Some(address) = entries[at] {
                let place = random.below(waiting.len() + 1);
                waiting.insert(place, address_piece(address, 32, ignored(random)));
            }
            for piece in waiting {
                self.pieces.push(piece);
                if random.chance(again, 6) {
                    self.name_again(random);
                }
            }
            self.slots.push(self.pieces.len());
            self.name(random, route[at]);
            if random.chance(again, 8) {
                self.name_again(random);
            }
        }
        self.entries = entries.to_vec();
        self.exrs = exrs.iter().map(|pieces| pieces.concat()).collect();
    }

    /// More EXRS for one domain of the route, right before its name, so that the
    /// list has just so many bytes, where that can be.
    pub fn fill_to(&mut self, random: &mut Random, bytes: usize) {
        let left = bytes.saturating_sub(self.pieces.concat().len());
        let Some(more) = filling(random, left).filter(|_| !self.slots.is_empty()) else {
            return;
        };
        let at = random.between(1, self.slots.len());
        let place = self.slots[at - 1];
        self.exrs[at].extend(more.concat());
        self.pieces.splice(place..place, more);
        self.slots.clear();
    }
}
