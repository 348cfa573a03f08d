//! PCEP messages that pass every check of their frame: objects in any order and
//! met twice, with TLVs, unknown ones among them, and anything in the bits that
//! aren't looked at.

use super::damage::OUT_OF_RANGE;
use super::random::Random;
use super::requests::RequestCase;

pub const PCREQ: u8 = 3;
pub const PCREP: u8 = 4;

/// Class and type of the objects that are known in either message.
pub const RP: (u8, u8) = (2, 1);
pub const NO_PATH: (u8, u8) = (3, 1);
pub const END_POINTS: (u8, u8) = (4, 1);
pub const BANDWIDTH: (u8, u8) = (5, 1);
pub const METRIC: (u8, u8) = (6, 1);
pub const ERO: (u8, u8) = (7, 1);
pub const IRO: (u8, u8) = (10, 1);
pub const XRO: (u8, u8) = (17, 1);

/// The bit P of an object header's second byte.
pub const P: u8 = 2;

/// The flag B of a METRIC.
const B: u8 = 1;

/// One object's bytes.
pub type Piece = Vec<u8>;

/// Kind, flags and float bits of a METRIC.
pub type Metric = (u8, u8, u32);

/// A message as a list of objects, before it is written as bytes.
#[derive(Clone, Debug)]
pub struct MessageDraft {
    pub message_type: u8,
    /// The five flag bits of the header.
    pub flags: u8,
    pub objects: Vec<Piece>,
}

impl MessageDraft {
    /// The message, with a header that fits the objects.
    pub fn encode(&self) -> Vec<u8> {
        let body = self.objects.concat();
        let length = (4 + body.len()) as u16;
        let mut bytes = vec![1 << 5 | self.flags, self.message_type];
        bytes.extend(length.to_be_bytes());
        bytes.extend(body);
        bytes
    }

    /// Where the object `index` begins in the message.
    pub fn offset_of(&self, index: usize) -> usize {
        let before: usize = self.objects[..index].iter().map(Vec::len).sum();
        4 + before
    }

    /// The objects that a reader of this message knows.
    pub fn known(&self) -> &'static [(u8, u8)] {
        match self.message_type {
            PCREQ => &[RP, END_POINTS, BANDWIDTH, METRIC, IRO, XRO],
            _ => &[RP, ERO, NO_PATH, METRIC],
        }
    }

    /// The first object of this class and type.
    pub fn find(&self, class_type: (u8, u8)) -> Option<usize> {
        self.objects
            .iter()
            .position(|object| class_type_of(object) == class_type)
    }
}

pub fn class_type_of(object: &[u8]) -> (u8, u8) {
    (object[0], object[1] >> 4)
}

/// An object with its right length; `bits` are the reserved ones, P and I.
pub fn object((class, object_type): (u8, u8), bits: u8, body: &[u8]) -> Piece {
    let length = (4 + body.len()) as u16;
    let mut piece = vec![class, object_type << 4 | bits];
    piece.extend(length.to_be_bytes());
    piece.extend(body);
    piece
}

/// The bits of a known object's header: mostly P or none, sometimes any.
fn any_bits(random: &mut Random) -> u8 {
    match random.below(4) {
        0 => random.below(16) as u8,
        1 => P,
        _ => 0,
    }
}

fn known_object(random: &mut Random, class_type: (u8, u8), body: &[u8]) -> Piece {
    let bits = any_bits(random);
    object(class_type, bits, body)
}

/// An object that the reader of the message doesn't know.
pub fn unknown_object(random: &mut Random, known: &[(u8, u8)], must_be_known: bool) -> Piece {
    let class_type = loop {
        let class = random.pick(&[1, 2, 3, 4, 5, 6, 7, 8, 9, 10, 11, 12, 17, 33, 0, 255]);
        let object_type = random.pick(&[1, 1, 2, 0, 3, 15]);
        if !known.contains(&(class, object_type)) {
            break (class, object_type);
        }
    };
    let bits = random.below(16) as u8 & !P | if must_be_known { P } else { 0 };
    let words = random.pick(&[0, 0, 1, 2, 3, 8]);
    let body = random.bytes(4 * words);
    object(class_type, bits, &body)
}

/// TLVs, or words that aren't any.
fn tlvs(random: &mut Random) -> Vec<u8> {
    match random.below(6) {
        0 => {
            let words = random.between(1, 4);
            random.bytes(4 * words)
        }
        1 => {
            let length = random.between(0, 9);
            let mut tlv = vec![0, random.byte(), 0, length as u8];
            tlv.extend(random.bytes(length));
            tlv.resize(4 + length.div_ceil(4) * 4, 0);
            tlv
        }
        _ => Vec::new(),
    }
}

/// An RP; its fields are request-ID and the six low flags.
fn rp(random: &mut Random) -> (Piece, (u32, u32)) {
    let id = random.pick(&[0, 1, 0x7FFF_FFFF, 0x8000_0000, u32::MAX]);
    let request_id = if random.chance(1, 4) {
        id
    } else {
        random.bits()
    };
    let flags = match random.below(3) {
        0 => 0,
        1 => random.bits() & 0x3F,
        _ => random.bits(),
    };
    let mut body = flags.to_be_bytes().to_vec();
    body.extend(request_id.to_be_bytes());
    body.extend(tlvs(random));
    let piece = known_object(random, RP, &body);
    (piece, (request_id, flags & 0x3F))
}

fn end_points(random: &mut Random, source: u32, destination: u32) -> Piece {
    let body = [source.to_be_bytes(), destination.to_be_bytes()].concat();
    known_object(random, END_POINTS, &body)
}

fn metric(random: &mut Random, (kind, flags, bits): Metric) -> Piece {
    // Two reserved bytes come first.
    let reserved = if random.chance(1, 3) {
        random.byte()
    } else {
        0
    };
    let mut body = vec![reserved, reserved, flags, kind];
    body.extend(bits.to_be_bytes());
    known_object(random, METRIC, &body)
}

/// A METRIC without B, or with any flags.
fn any_metric(random: &mut Random, may_bound: bool) -> Metric {
    let kind = random.pick(&[1, 2, 3, 0, 4, 255]);
    let mask = if may_bound { 0xFF } else { !B };
    let flags = random.pick(&[0, 2, 1, 3, random.clone().byte()]) & mask;
    let bits = match random.below(100) {
        0 => random.pick(&OUT_OF_RANGE),
        1..=9 => random.pick(&[0, 1, 0x7F7F_FFFF, 0x4160_0000]),
        _ => random.bits() % 0x7F80_0000,
    };
    (kind, flags, bits)
}

fn xro(random: &mut Random, list: &[u8]) -> Piece {
    let flags = if random.chance(1, 3) {
        random.bytes(4)
    } else {
        vec![0; 4]
    };
    known_object(random, XRO, &[&flags, list].concat())
}

/// What reading a PCReq must give where nothing refuses it: document 02's
/// numbers but the place, and the METRICs.
#[derive(Clone, Debug, PartialEq, Eq)]
pub struct PcReqFields {
    pub numbers: [u32; 10],
    pub metrics: Vec<Metric>,
}

/// A PCReq that carries a request, whose lists get the length of whole words,
/// since an object's has it. A METRIC that is out of range becomes its bound,
/// as that is how it is told.
pub fn pcreq(random: &mut Random, case: &mut RequestCase) -> (MessageDraft, PcReqFields) {
    to_words(random, &mut case.include);
    to_words(random, &mut case.exclude);
    let (rp_piece, (request_id, rp_flags)) = rp(random);
    let ends = end_points(random, case.source, case.destination);
    let metrics = metrics_of(random, case);
    let mut kinds = vec![vec![rp_piece], vec![ends]];
    if case.bandwidth_bits != 0 || random.chance(1, 3) {
        let body = case.bandwidth_bits.to_be_bytes();
        kinds.push(vec![known_object(random, BANDWIDTH, &body)]);
    }
    if !case.include.is_empty() || random.chance(1, 3) {
        kinds.push(vec![known_object(random, IRO, &case.include)]);
    }
    if !case.exclude.is_empty() || random.chance(1, 3) {
        kinds.push(vec![xro(random, &case.exclude)]);
    }
    for same in &mut kinds {
        if random.chance(1, 6) {
            same.push(again(random, class_type_of(&same[0])));
        }
    }
    kinds.push(metrics.iter().map(|&m| metric(random, m)).collect());
    let draft = shuffled_message(random, PCREQ, kinds);
    let list_at = |class_type, before| match draft.find(class_type) {
        Some(index) => (draft.offset_of(index) + before) as u32,
        None => 0,
    };
    let numbers = [
        request_id,
        rp_flags,
        case.source,
        case.destination,
        case.bandwidth_bits,
        metrics.len() as u32,
        list_at(IRO, 4),
        case.include.len() as u32,
        list_at(XRO, 8),
        case.exclude.len() as u32,
    ];
    (draft, PcReqFields { numbers, metrics })
}

/// Cut, or filled up with zeros, to whole words.
fn to_words(random: &mut Random, list: &mut Vec<u8>) {
    let words = match random.chance(1, 2) {
        true => list.len() / 4,
        false => list.len().div_ceil(4),
    };
    list.resize(4 * words, 0);
}

/// METRICs of which the first with B set is the request's bound, if it has one.
fn metrics_of(random: &mut Random, case: &mut RequestCase) -> Vec<Metric> {
    let before = random.pick(&[0, 0, 0, 1, 2]);
    let mut metrics: Vec<Metric> = (0..before).map(|_| any_metric(random, false)).collect();
    if case.bound_counts {
        let (kind, flags, _) = any_metric(random, true);
        metrics.push((kind, flags | B, case.bound_bits));
        let after = random.pick(&[0, 0, 1, 2, 20]);
        metrics.extend((0..after).map(|_| any_metric(random, true)));
    }
    let out_of_range = metrics.iter().find(|metric| metric.2 >= 0x7F80_0000);
    if let Some(&(_, _, bits)) = out_of_range {
        (case.bound_counts, case.bound_bits) = (true, bits);
    }
    metrics
}

/// One more object of a kind, with anything in it: it doesn't count.
fn again(random: &mut Random, class_type: (u8, u8)) -> Piece {
    let words = match class_type {
        RP | XRO | ERO => random.between(2, 8),
        END_POINTS => 2,
        IRO if random.chance(1, 20) => 257,
        IRO => random.between(0, 6),
        _ => 1,
    };
    let body = random.bytes(4 * words);
    known_object(random, class_type, &body)
}

/// Objects of different kinds in any order, those of one kind in theirs, and
/// unknown ones with P clear among them. Often each kind stays together.
fn shuffled_message(
    random: &mut Random,
    message_type: u8,
    mut kinds: Vec<Vec<Piece>>,
) -> MessageDraft {
    let mut draft = MessageDraft {
        message_type,
        flags: random.pick(&[0, 0, 31, random.clone().byte() & 31]),
        objects: Vec::new(),
    };
    let in_order = random.chance(1, 3);
    kinds.retain(|same| !same.is_empty());
    while !kinds.is_empty() {
        let at = if in_order {
            0
        } else {
            random.below(kinds.len())
        };
        draft.objects.push(kinds[at].remove(0));
        kinds.retain(|same| !same.is_empty());
    }
    for _ in 0..random.pick(&[0, 0, 0, 1, 3]) {
        let at = random.below(draft.objects.len() + 1);
        let unknown = unknown_object(random, draft.known(), false);
        draft.objects.insert(at, unknown);
    }
    draft
}

/// The addresses of a path, or nature of issue and C.
pub type Said = Result<Vec<u32>, (u8, bool)>;

/// What a PCRep says.
#[derive(Clone, Debug, PartialEq, Eq)]
pub struct PcRepFields {
    pub request_id: u32,
    pub rp_flags: u32,
    pub said: Said,
    pub metrics: Vec<Metric>,
}

/// A PCRep that is right but perhaps for its METRICs.
pub fn pcrep(random: &mut Random) -> (MessageDraft, PcRepFields) {
    let (rp_piece, (request_id, rp_flags)) = rp(random);
    let said = any_said(random);
    let mut replies = vec![say(random, &said)];
    // Of ERO and NO-PATH the first counts, whatever comes after it.
    for _ in 0..random.pick(&[0, 0, 0, 1, 2]) {
        let class_type = random.pick(&[ERO, NO_PATH]);
        replies.push(again(random, class_type));
    }
    let count = random.pick(&[0, 0, 1, 1, 2, 5]);
    let metrics: Vec<Metric> = (0..count).map(|_| any_metric(random, true)).collect();
    let mut kinds = vec![vec![rp_piece], replies];
    if random.chance(1, 6) {
        kinds[0].push(again(random, RP));
    }
    kinds.push(metrics.iter().map(|&m| metric(random, m)).collect());
    let fields = PcRepFields {
        request_id,
        rp_flags,
        said,
        metrics,
    };
    (shuffled_message(random, PCREP, kinds), fields)
}

pub fn any_said(random: &mut Random) -> Said {
    if random.chance(1, 3) {
        return Err((random.byte(), random.chance(1, 2)));
    }
    let length = match random.below(200) {
        0 => random.between(100, 8_000),
        1..=40 => random.pick(&[0, 1]),
        _ => random.between(2, 17),
    };
    Ok(random.words(length))
}

fn say(random: &mut Random, said: &Said) -> Piece {
    match said {
        Ok(addresses) => {
            let body = ero_body(random, addresses);
            known_object(random, ERO, &body)
        }
        Err((nature, c_flag)) => {
            let others = if random.chance(1, 2) {
                0
            } else {
                random.byte()
            };
            let flags = others & 0x7F | u8::from(*c_flag) << 7;
            let mut body = vec![*nature, flags, others, others];
            body.extend(tlvs(random));
            known_object(random, NO_PATH, &body)
        }
    }
}

/// The subobjects of an ERO; the last byte of each isn't looked at.
pub fn ero_body(random: &mut Random, addresses: &[u32]) -> Vec<u8> {
    let last = if random.chance(1, 2) {
        0
    } else {
        random.byte()
    };
    let hop = |address: &u32| [&[1, 8], &address.to_be_bytes()[..], &[32, last]].concat();
    addresses.iter().flat_map(hop).collect()
}
