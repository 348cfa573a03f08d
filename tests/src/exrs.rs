//! EXRS: what a list with some is an example of, what they hit, and how the X
//! bits inside them take part in choosing the round.

use crate::by_hand::desired::{any_desired, inside_exrs, subobjects, Decided};
use crate::compare::Kinds;
use crate::tree::Tree;
use reference::generate::Reading;
use reference::{Question, Request};

/// What stands inside an EXRS, by type and X.
pub fn inside_kind(piece: &[u8]) -> String {
    let x = if piece[0] >= 0x80 { "set" } else { "clear" };
    format!("inside: type {:>2}, X {x}", piece[0] & 0x7F)
}

/// All kinds of what stands inside.
pub fn all_inside_kinds() -> Vec<String> {
    let types = [1, 5, 6, 7, 32];
    let pieces = types.iter().flat_map(|&kind| [[kind], [kind | 0x80]]);
    pieces.map(|piece| inside_kind(&piece)).collect()
}

/// What the EXRS of an accepted list are examples of.
pub fn read_kinds(include: &[u8], reading: &Reading, kinds: &mut Kinds) {
    let Ok(stops) = reading else { return };
    for (_, entry, exrs) in stops {
        let wholes = subobjects(exrs);
        let beside = match (wholes.is_empty(), entry) {
            (true, _) => continue,
            (_, Some(_)) => "beside an entry constraint",
            _ => "alone",
        };
        kinds.add(format!("{} EXRS {beside}", wholes.len().min(3)));
        for whole in wholes {
            if whole.len() == 252 {
                kinds.add("EXRS of 252 bytes");
            }
            if whole[2..4] != [0, 0] {
                kinds.add("reserved bytes set");
            }
            for piece in subobjects(&whole[4..]) {
                kinds.add(inside_kind(piece));
            }
        }
    }
    if include.len() == 1_024 {
        kinds.add("list of 1,024 bytes");
    }
}

/// What `read_kinds` tells of, all of which a run should meet.
pub fn all_read_kinds() -> Vec<String> {
    let counts = (1..=3).flat_map(|count| {
        ["beside an entry constraint", "alone"].map(|beside| format!("{count} EXRS {beside}"))
    });
    let others = [
        "EXRS of 252 bytes",
        "reserved bytes set",
        "list of 1,024 bytes",
    ];
    counts
        .chain(others.map(String::from))
        .chain(all_inside_kinds())
        .collect()
}

/// The four outcomes of the rounds in which an X inside an EXRS, or that there is
/// none, decides; the others.
pub const OUTCOMES: [&str; 5] = [
    "round 1 has a path, X set inside an EXRS",
    "round 1 has none, X clear everywhere",
    "round 2 by an X inside an EXRS alone, with a path",
    "round 2 by an X inside an EXRS alone, without a path",
    "other",
];

/// Which of them an accepted request with EXRS is.
pub fn outcome(request: &Request, decided: Decided) -> &'static str {
    let inside = any_desired(&inside_exrs(request.include));
    let outside = any_desired(request.exclude);
    match decided {
        Decided::ForTheFirst if inside => OUTCOMES[0],
        Decided::WithoutASecond(_) => OUTCOMES[1],
        Decided::ForTheSecond(_) if !outside => OUTCOMES[2],
        Decided::InVain(_) if !outside => OUTCOMES[3],
        _ => OUTCOMES[4],
    }
}

const HITS: [&str; 3] = ["hits", "would hit elsewhere", "hits nothing"];

/// What each exclusion inside the EXRS of an accepted request is an example of.
pub fn hit_kinds(request: &Request, tree: &Tree, kinds: &mut Kinds) {
    let question = Question::accept(request).expect("it is accepted");
    for (level, stop) in question.stops.iter().enumerate() {
        for piece in stop.exrs.iter().flat_map(|whole| subobjects(&whole[4..])) {
            let hits = |level| hits_level(&question, tree, piece, level);
            let mut others = (0..question.stops.len()).filter(|&other| other != level);
            let which = match (hits(level), others.any(hits)) {
                (true, _) => HITS[0],
                (false, true) => HITS[1],
                _ => HITS[2],
            };
            kinds.add(hit_kind(which, is_node(piece), piece[0] >= 0x80));
        }
    }
}

fn hit_kind(which: &str, node: bool, desired: bool) -> String {
    let what = if node { "node" } else { "domain" };
    format!("{what} inside {which}, X {desired}")
}

/// All that `hit_kinds` tells of.
pub fn all_hit_kinds() -> Vec<String> {
    let choices = (0..4).map(|code| (code & 1 > 0, code & 2 > 0));
    let of = |which| {
        choices
            .clone()
            .map(move |(node, x)| hit_kind(which, node, x))
    };
    HITS.into_iter().flat_map(of).collect()
}

fn is_node(piece: &[u8]) -> bool {
    piece[0] & 0x7F == 1
}

/// It hits an entry node at this level of the tree, the source at level 0, or the
/// domain there.
fn hits_level(question: &Question, tree: &Tree, piece: &[u8], level: usize) -> bool {
    let word = |at: usize| u32::from_be_bytes(piece[at..at + 4].try_into().expect("four bytes"));
    if is_node(piece) {
        let length = u32::from(piece[6]);
        let mut entries = tree.entries.iter().filter(|e| e.0 as usize == level);
        return entries.any(|e| (e.1 ^ word(2)).leading_zeros() >= length);
    }
    let domain = question.profile.domain(question.stops[level].domain);
    match piece[0] & 0x7F {
        5 => domain.as_number == word(4),
        32 => domain.as_number == word(0) & 0xFFFF,
        6 => (domain.kind, domain.area) == (1, &piece[4..8]),
        _ => (domain.kind, domain.area) == (2, &piece[4..4 + usize::from(piece[2])]),
    }
}
