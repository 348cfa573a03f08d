//! Include and exclude lists, made piece by piece so that damage can be done
//! to one subobject.

use super::draft::Draft;
use super::random::Random;
use super::shapes;
use crate::profile::{IS_IS, NO_AREA, OSPF};

/// One subobject's bytes.
pub type Piece = Vec<u8>;

/// A byte that is ignored: mostly zero, sometimes anything.
pub fn ignored(random: &mut Random) -> u8 {
    if random.chance(3, 4) {
        0
    } else {
        random.byte()
    }
}

/// An address; `last` is the attribute in an exclude list.
pub fn address_piece(address: u32, prefix: u8, last: u8) -> Piece {
    let mut piece = vec![1, 8];
    piece.extend(address.to_be_bytes());
    piece.extend([prefix, last]);
    piece
}

/// An AS in either form; only low numbers fit the short one.
pub fn as_piece(random: &mut Random, as_number: u32) -> Piece {
    let mut piece = Vec::new();
    if as_number < 65_536 && random.chance(1, 2) {
        piece.extend([32, 4]);
        piece.extend((as_number as u16).to_be_bytes());
    } else {
        piece.extend([5, 8, ignored(random), ignored(random)]);
        piece.extend(as_number.to_be_bytes());
    }
    piece
}

/// An AS that no list may have.
pub fn nobodys_piece(random: &mut Random) -> Piece {
    let as_number = random.pick(&shapes::NOBODYS_AS);
    as_piece(random, as_number)
}

pub fn area_piece(random: &mut Random, kind: u8, area: &[u8]) -> Piece {
    let mut piece = Vec::new();
    if kind == OSPF {
        piece.extend([6, 8, ignored(random), ignored(random)]);
        piece.extend(area);
        return piece;
    }
    let whole = 4 + area.len().div_ceil(4) * 4;
    piece.extend([7, whole as u8, area.len() as u8, ignored(random)]);
    piece.extend(area);
    piece.resize(whole, 0);
    piece
}

/// An area that may or may not be in the profile.
pub fn any_area(random: &mut Random) -> Piece {
    let (kind, area) = shapes::area(random);
    area_piece(random, kind, &area)
}

/// An include list under construction.
pub struct Include<'a> {
    pub draft: &'a Draft,
    pub pieces: Vec<Piece>,
    /// The entry constraint that each domain of the route has, if any.
    pub entries: Vec<Option<u32>>,
    /// The bytes of the EXRS that each has.
    pub exrs: Vec<Vec<u8>>,
    /// Where in the pieces the name of each domain begins, from the second on,
    /// while nothing was put in between.
    pub slots: Vec<usize>,
    current_as: u32,
    here: usize,
}

impl<'a> Include<'a> {
    pub fn new(draft: &'a Draft, ingress: usize) -> Include<'a> {
        let current_as = draft.domain(ingress).as_number;
        Include {
            draft,
            pieces: Vec::new(),
            entries: vec![None],
            exrs: vec![Vec::new()],
            slots: Vec::new(),
            current_as,
            here: ingress,
        }
    }

    /// Names `domain` in one of the ways that are right for it.
    pub fn name(&mut self, random: &mut Random, domain: usize) {
        let named = self.draft.domain(domain);
        let alone = self.draft.domains_of(named.as_number) == 1;
        let without_as = named.as_number == self.current_as && named.kind != NO_AREA;
        if !(without_as && random.chance(1, 2)) {
            self.pieces.push(as_piece(random, named.as_number));
            if alone && (named.kind == NO_AREA || random.chance(1, 2)) {
                self.enter(domain);
                return;
            }
        }
        self.pieces.push(area_piece(random, named.kind, named.area));
        self.enter(domain);
    }

    fn enter(&mut self, domain: usize) {
        self.current_as = self.draft.domain(domain).as_number;
        self.here = domain;
    }

    /// Names the domain one is in, which adds nothing.
    pub fn name_again(&mut self, random: &mut Random) {
        self.name(random, self.here);
    }

    pub fn constrain(&mut self, random: &mut Random, address: u32) {
        let last = ignored(random);
        self.pieces.push(address_piece(address, 32, last));
    }

    /// The way to all of `route` after the ingress, with entry constraints on
    /// some domains and now and then a name that adds nothing.
    pub fn follow(&mut self, random: &mut Random, route: &[usize]) {
        let constrained = random.pick(&[0, 0, 0, 1, 3]);
        if random.chance(1, 4) {
            self.name_again(random);
        }
        for pair in route.windows(2) {
            self.entries.push(None);
            self.exrs.push(Vec::new());
            if random.chance(constrained, 6) {
                let address = entry_node(random, self.draft, pair[0], pair[1]);
                self.constrain(random, address);
                self.entries.pop();
                self.entries.push(Some(address));
                if random.chance(1, 4) {
                    self.name_again(random);
                }
            }
            self.name(random, pair[1]);
            if random.chance(1, 8) {
                self.name_again(random);
            }
        }
    }
}

/// An entry node of the pair, or any address.
pub fn entry_node(random: &mut Random, draft: &Draft, from: usize, to: usize) -> u32 {
    let nodes: Vec<u32> = draft
        .hop_list()
        .iter()
        .filter(|hop| hop.from == from && hop.to == to)
        .map(|hop| hop.v)
        .collect();
    if nodes.is_empty() || random.chance(1, 20) {
        random.bits()
    } else {
        random.pick(&nodes)
    }
}

/// Different domains from `ingress` on, mostly along hops.
pub fn route(random: &mut Random, draft: &Draft, ingress: usize, most: usize) -> Vec<usize> {
    let hops = draft.hop_list();
    let mut route = vec![ingress];
    let length = random.between(most.div_ceil(2), most);
    while route.len() < length {
        let here = route[route.len() - 1];
        let mut onward: Vec<usize> = hops
            .iter()
            .filter(|hop| hop.from == here)
            .map(|hop| hop.to)
            .collect();
        onward.retain(|domain| !route.contains(domain));
        // Now and then on to a domain that no hop leads to.
        let stuck = onward.is_empty();
        if (stuck && random.chance(1, 4)) || random.chance(1, 100) {
            onward = (0..draft.domains.len())
                .filter(|d| !route.contains(d))
                .collect();
        }
        if onward.is_empty() {
            break;
        }
        route.push(random.pick(&onward));
    }
    route
}

/// The plainest include list for a route: AS in its long form, then the area.
pub fn write_route(draft: &Draft, route: &[usize]) -> Vec<u8> {
    let mut bytes = Vec::new();
    for &index in &route[1..] {
        let domain = draft.domain(index);
        bytes.extend([5, 8, 0, 0]);
        bytes.extend(domain.as_number.to_be_bytes());
        match domain.kind {
            OSPF => bytes.extend([6, 8, 0, 0]),
            IS_IS => {
                let whole = 4 + domain.area.len().div_ceil(4) * 4;
                bytes.extend([7, whole as u8, domain.area.len() as u8, 0]);
            }
            _ => {}
        }
        bytes.extend(domain.area);
        if domain.kind == IS_IS {
            let padding = domain.area.len().div_ceil(4) * 4 - domain.area.len();
            bytes.extend(std::iter::repeat_n(0, padding));
        }
    }
    bytes
}

/// A well-formed exclude list; most of what it names is in the profile.
pub fn exclude_pieces(random: &mut Random, draft: &Draft, most: usize) -> Vec<Piece> {
    let count = random.between(0, most);
    (0..count).map(|_| exclude_piece(random, draft)).collect()
}

pub fn exclude_piece(random: &mut Random, draft: &Draft) -> Piece {
    let mut piece = match random.below(8) {
        0 => {
            let domain = draft.domain(random.below(draft.domains.len()));
            as_piece(random, domain.as_number)
        }
        1 => {
            let domain = draft.domain(random.below(draft.domains.len()));
            match domain.kind {
                NO_AREA => any_area(random),
                kind => area_piece(random, kind, domain.area),
            }
        }
        2 => any_area(random),
        3 => {
            let as_number = shapes::any_as(random);
            as_piece(random, as_number)
        }
        _ => exclude_address(random, draft),
    };
    if random.chance(1, 3) {
        piece[0] |= 0x80;
    }
    piece
}

/// What the profile lacks: all its numbers are reserved, or none is. No area
/// that is made has this byte.
pub fn lacked(random: &mut Random, draft: &Draft) -> Piece {
    let low = random.below(16) as u32;
    let (as_number, node) = match draft.live {
        true => (64_496 + low, 0xC000_0200 + low),
        false => (64_512 + low, 0x0A00_0000 + low),
    };
    match random.below(3) {
        0 => as_piece(random, as_number),
        1 => area_piece(random, 2, &[0x77; 5]),
        _ => address_piece(node, 32, 1),
    }
}

/// One node, a block around it, or every address.
fn exclude_address(random: &mut Random, draft: &Draft) -> Piece {
    let address = if draft.hops.is_empty() || random.chance(1, 6) {
        random.bits()
    } else {
        let hop = draft.hop(random.below(draft.hops.len()));
        random.pick(&[hop.u, hop.v])
    };
    let prefix = match random.below(12) {
        0 => random.between(0, 32) as u8,
        1 => random.between(24, 31) as u8,
        2 => random.pick(&[0, 1, 31]),
        _ => 32,
    };
    // Bits after the prefix are ignored, so they may be anything.
    let noise = if prefix < 32 {
        random.bits() >> prefix
    } else {
        0
    };
    address_piece(address ^ noise, prefix, 1)
}
