//! PCEP messages with something wrong in their frame, and the number and place
//! that is told of it. The expectation follows from where the damage was done.

use super::damage::Planned;
use super::messages::{
    class_type_of, ero_body, object, unknown_object, MessageDraft, PcRepFields, BANDWIDTH,
    END_POINTS, ERO, METRIC, NO_PATH, PCREP, PCREQ, RP, XRO,
};
use super::random::Random;

/// Numbers 36 to 41. The draft is right.
pub fn planned(random: &mut Random, draft: &MessageDraft) -> Planned {
    match random.below(12) {
        0..=1 => header(random, draft),
        2..=4 => any_length(random, draft.clone()),
        5..=6 => own_length(random, draft.clone()),
        7..=8 => unknown(random, draft.clone()),
        9..=10 => missing(random, draft.clone()),
        _ => two(random, draft),
    }
}

fn plan(bytes: Vec<u8>, number: u32, place: usize) -> Planned {
    Planned {
        bytes,
        number,
        place,
    }
}

fn header(random: &mut Random, draft: &MessageDraft) -> Planned {
    let mut bytes = draft.encode();
    let length = bytes.len();
    match random.below(7) {
        0 => bytes.truncate(random.below(4)),
        1 => bytes[0] ^= random.between(1, 7) as u8 * 32,
        2 => {
            let other = random.pick(&[0, 1, 2, 3, 4, 5, 6, 131, 255]);
            bytes[1] = if other == bytes[1] { 7 } else { other };
        }
        3 => {
            let said = (length as u16) ^ random.between(1, 65_535) as u16;
            bytes[2..4].copy_from_slice(&said.to_be_bytes());
        }
        4 => bytes.resize(length + random.pick(&[1, 4, 8, 65_536]), 0),
        5 => bytes.truncate(random.between(4, length - 1)),
        _ => {
            // As long as it says, but not in whole words.
            bytes.resize(length + random.between(1, 3), 0);
            let said = bytes.len() as u16;
            bytes[2..4].copy_from_slice(&said.to_be_bytes());
        }
    }
    plan(bytes, 36, 0)
}

/// A length that no object may have.
fn any_length(random: &mut Random, mut draft: MessageDraft) -> Planned {
    let index = random.below(draft.objects.len());
    let place = draft.offset_of(index);
    // First, since it changes how many bytes are left.
    more_damage(random, &mut draft, index + 1);
    let left = draft.encode().len() - place;
    let length = match random.below(4) {
        0 => random.below(4),
        1 => 4 * random.below(left / 4) + random.between(1, 3),
        2 => left + 4 * random.pick(&[1, 1, 2, 100]),
        _ => random.between(left + 1, 65_535),
    };
    draft.objects[index][2..4].copy_from_slice(&(length as u16).to_be_bytes());
    plan(draft.encode(), 37, place)
}

/// A known object that isn't as long as its kind is.
fn own_length(random: &mut Random, mut draft: MessageDraft) -> Planned {
    let choices: Vec<(usize, usize)> = (0..draft.objects.len())
        .filter_map(|index| Some((index, wrong_length(random, &draft, index)?)))
        .collect();
    // An RP is always there.
    let (index, length) = random.pick(&choices);
    let class_type = class_type_of(&draft.objects[index]);
    let bits = draft.objects[index][1] & 15;
    let body = random.bytes(length - 4);
    let place = draft.offset_of(index);
    draft.objects[index] = object(class_type, bits, &body);
    more_damage(random, &mut draft, index + 1);
    plan(draft.encode(), 37, place)
}

fn wrong_length(random: &mut Random, draft: &MessageDraft, index: usize) -> Option<usize> {
    let class_type = class_type_of(&draft.objects[index]);
    if !draft.known().contains(&class_type) {
        return None;
    }
    match class_type {
        RP => Some(random.pick(&[4, 8])),
        XRO | NO_PATH => Some(4),
        END_POINTS | METRIC => Some(random.pick(&[4, 8, 16, 20])),
        BANDWIDTH => Some(random.pick(&[4, 12, 16])),
        _ => None,
    }
}

/// An unknown object with P set.
fn unknown(random: &mut Random, mut draft: MessageDraft) -> Planned {
    let index = random.below(draft.objects.len() + 1);
    let piece = unknown_object(random, draft.known(), true);
    draft.objects.insert(index, piece);
    more_damage(random, &mut draft, index + 1);
    plan(draft.encode(), 38, draft.offset_of(index))
}

/// Something else wrong from the object `from` on, which isn't told.
fn more_damage(random: &mut Random, draft: &mut MessageDraft, from: usize) {
    if random.chance(2, 3) {
        return;
    }
    let at = random.between(from, draft.objects.len());
    if random.chance(1, 2) {
        let piece = unknown_object(random, draft.known(), true);
        draft.objects.insert(at, piece);
    } else {
        draft.objects.truncate(at);
        draft.objects.push(object(METRIC, 0, &[]));
    }
}

/// None of the objects that must be there.
fn missing(random: &mut Random, mut draft: MessageDraft) -> Planned {
    let number = match (draft.message_type, random.below(3)) {
        (_, 0) => 39,
        (PCREQ, _) => 40,
        _ => 41,
    };
    let alone = number != 39 || random.chance(1, 2);
    draft.objects.retain(|piece| match class_type_of(piece) {
        RP => number != 39,
        END_POINTS => number != 40 && alone,
        ERO | NO_PATH => draft.message_type != PCREP || (number != 41 && alone),
        _ => true,
    });
    plan(draft.encode(), number, 0)
}

/// A header that is wrong and objects that are.
fn two(random: &mut Random, draft: &MessageDraft) -> Planned {
    let mut bytes = match random.chance(1, 2) {
        true => any_length(random, draft.clone()).bytes,
        false => missing(random, draft.clone()).bytes,
    };
    bytes[0] ^= 0x20;
    plan(bytes, 36, 0)
}

/// One to three bytes changed anywhere: nothing is known of the answer.
pub fn scratched(random: &mut Random, draft: &MessageDraft) -> Vec<u8> {
    let mut bytes = draft.encode();
    for _ in 0..random.between(1, 3) {
        let at = random.below(bytes.len());
        bytes[at] = match random.chance(1, 2) {
            true => random.byte(),
            false => bytes[at] ^ 1 << random.below(8),
        };
    }
    bytes
}

/// An ERO that is wrong in form from some subobject on; the fields' path says
/// how many stand before it. Its first object is what counts.
pub fn spoiled_ero(random: &mut Random, fields: &PcRepFields, draft: &MessageDraft) -> Planned {
    let addresses = fields.said.as_deref().unwrap_or_default();
    let mut body = ero_body(random, addresses);
    let index = random.below(addresses.len() + 1);
    let at = 8 * index;
    let rest = body.split_off(at);
    let address = random.bits().to_be_bytes();
    let prefix = random.pick(&[0, 1, 31, 33, 255]);
    let (number, mut piece) = match random.below(6) {
        0 => (23, vec![1, 8, 0, 0]),
        1 => {
            let other = random.pick(&[0, 2, 3, 4, 5, 6, 7, 32, 33, 64, 127]);
            (24, vec![other | random.pick(&[0, 0x80]), 8, 0, 0])
        }
        2 => (27, vec![0x81, random.pick(&[8, 8, 4]), 0, 0]),
        3 => (25, vec![1, random.pick(&[0, 4, 7, 9, 12, 255]), 0, 0]),
        _ => (26, [&[1, 8], &address[..], &[prefix, 0]].concat()),
    };
    // A piece that is cut must stand last.
    if number != 23 {
        piece.extend(rest);
    }
    body.extend(piece);
    let ero = object(ERO, 0, &body);
    let mut draft = draft.clone();
    match draft.find(ERO).into_iter().chain(draft.find(NO_PATH)).min() {
        Some(first) => draft.objects[first] = ero,
        None => draft.objects.push(ero),
    }
    plan(draft.encode(), number, at)
}
