//! What can be wrong with a list: in form (23 to 27), in meaning (28 to 32),
//! and in length (22).

use super::lists::{any_area, as_piece, entry_node, nobodys_piece, route, Include, Piece};
use super::random::Random;
use super::shapes;

const UNKNOWN_TYPES: [u8; 12] = [0, 2, 3, 4, 8, 9, 31, 33, 34, 64, 126, 127];

/// Spoils the form of one piece.
pub fn spoil_form(random: &mut Random, pieces: &mut Vec<Piece>) {
    if pieces.is_empty() {
        pieces.push(any_area(random));
    }
    if random.chance(1, 4) {
        pieces.push(spoiled_area(random));
        return;
    }
    let index = random.below(pieces.len());
    match random.below(8) {
        0 => cut_list(random, pieces, index),
        1 => pieces[index][0] = (pieces[index][0] & 0x80) | random.pick(&UNKNOWN_TYPES),
        2 => pieces[index][0] |= 0x80,
        3 => pieces[index][1] = other_length(random, pieces[index][1]),
        4 => {
            let at = random.below(pieces[index].len());
            pieces[index][at] = random.byte();
        }
        5 => {
            let address = random.bits();
            let prefix = random.pick(&[0, 8, 31, 32, 33, 64, 255]);
            let attribute = random.pick(&[0, 1, 2, 255]);
            let mut piece = vec![1, 8];
            piece.extend(address.to_be_bytes());
            piece.extend([prefix, attribute]);
            pieces.insert(index, piece);
        }
        6 => pieces.insert(index, nobodys_piece(random)),
        _ => {
            let more = random.between(1, 3);
            pieces.push(random.bytes(more));
        }
    }
}

/// The list ends inside this piece.
fn cut_list(random: &mut Random, pieces: &mut Vec<Piece>, index: usize) {
    pieces.truncate(index + 1);
    let left = random.between(1, pieces[index].len() - 1);
    pieces[index].truncate(left);
}

fn other_length(random: &mut Random, length: u8) -> u8 {
    let wrong = [0, 1, 3, 4, 7, 8, 9, 12, 16, 20, 24, 255];
    loop {
        let other = random.pick(&wrong);
        if other != length {
            return other;
        }
    }
}

/// An IS-IS area with a wrong area length, wrong length or wrong padding.
fn spoiled_area(random: &mut Random) -> Piece {
    let length = random.between(1, 13);
    let whole = 4 + length.div_ceil(4) * 4;
    let mut piece = vec![7, whole as u8, length as u8, 0];
    piece.extend(std::iter::repeat_n(0x49, length));
    piece.resize(whole, 0);
    match random.below(5) {
        0 => piece[2] = random.pick(&[0, 14, 15, 255]),
        1 => piece[1] = other_length(random, whole as u8),
        2 => piece[2] = random.between(1, 13) as u8,
        _ if length < whole - 4 => piece[random.between(4 + length, whole - 1)] = 1,
        _ => piece[2] -= 1,
    }
    piece
}

/// Goes wrong in meaning after the route so far; sometimes the list goes on.
pub fn spoil_meaning(random: &mut Random, include: &mut Include, route: &[usize]) {
    if include.draft.domains.len() > 16 && random.chance(1, 3) {
        return too_many(random, include, route);
    }
    match random.below(6) {
        0 => {
            let unknown = shapes::any_as(random);
            include.pieces.push(as_piece(random, unknown));
            if random.chance(1, 2) {
                include.pieces.push(any_area(random));
            }
        }
        1 => include.pieces.push(any_area(random)),
        2 => {
            let domain = random.below(include.draft.domains.len());
            let as_number = include.draft.domain(domain).as_number;
            include.pieces.push(as_piece(random, as_number));
        }
        3 => {
            let again = random.pick(route);
            include.name(random, again);
        }
        4 => {
            let count = random.between(1, 2);
            for _ in 0..count {
                let address = entry_node(random, include.draft, route[0], route[route.len() - 1]);
                include.constrain(random, address);
                if random.chance(1, 3) {
                    include.name_again(random);
                }
            }
        }
        _ => {
            let address = random.bits();
            let at = random.below(include.pieces.len() + 1);
            include.constrain(random, address);
            let piece = include.pieces.pop().expect("just added");
            include.pieces.insert(at, piece);
        }
    }
}

/// Goes on until there is a seventeenth domain, if the profile has so many.
fn too_many(random: &mut Random, include: &mut Include, route: &[usize]) {
    let mut count = route.len();
    for domain in shapes::shuffled(random, include.draft.domains.len()) {
        if count < 17 && !route.contains(&domain) {
            include.name(random, domain);
            count += 1;
        }
    }
}

/// An include list of any kind for a valid profile.
pub fn include_list(random: &mut Random, include: &mut Include, ingress: usize) -> Vec<u8> {
    if random.chance(1, 40) {
        let length = random.between(0, 1200);
        return random.bytes(length);
    }
    let route = route(random, include.draft, ingress, 16);
    if random.chance(9, 10) {
        include.follow(random, &route);
        if random.chance(1, 3) {
            spoil_meaning(random, include, &route);
        }
    }
    if random.chance(1, 4) {
        spoil_form(random, &mut include.pieces);
    }
    if random.chance(1, 12) {
        fill_up(random, include);
    }
    include.pieces.concat()
}

/// Names the domain one is in until the list is around its longest.
fn fill_up(random: &mut Random, include: &mut Include) {
    let goal = random.pick(&[500, 1000, 1020, 1024, 1025, 1028, 1100]);
    while include.pieces.concat().len() + 8 <= goal {
        include.name_again(random);
    }
}

/// An exclude list of any kind.
pub fn exclude_list(random: &mut Random, mut pieces: Vec<Piece>) -> Vec<u8> {
    match random.below(30) {
        0 => {
            let length = random.between(0, 1200);
            return random.bytes(length);
        }
        1..=4 => spoil_form(random, &mut pieces),
        5 => {
            let length = random.pick(&[1016, 1024, 1024, 1025, 1032]);
            let nothing = [0x81, 8, 0, 0, 0, 0, 32, 1];
            while pieces.concat().len() + nothing.len() <= length {
                pieces.push(nothing.to_vec());
            }
            let mut bytes = pieces.concat();
            if bytes.len() < length && random.chance(1, 2) {
                bytes.resize(length, 0);
            }
            return bytes;
        }
        _ => {}
    }
    pieces.concat()
}
