//! Exclusions by their X bits, in exclude lists and in EXRS, and how a request's
//! round comes about.

use reference::Request;
use std::collections::BTreeMap;
use std::fmt::{Display, Formatter, Result};

/// The subobjects of a well-formed list.
pub fn subobjects(list: &[u8]) -> Vec<&[u8]> {
    let mut pieces = Vec::new();
    let mut rest = list;
    while !rest.is_empty() {
        let (piece, after) = rest.split_at(usize::from(rest[1]));
        pieces.push(piece);
        rest = after;
    }
    pieces
}

/// A well-formed include list with what is inside each EXRS changed; an EXRS
/// left with nothing inside is left out.
fn changed_inside(include: &[u8], change: impl Fn(&[u8]) -> Vec<u8>) -> Vec<u8> {
    let mut list = Vec::new();
    for piece in subobjects(include) {
        if piece[0] != 33 {
            list.extend(piece);
            continue;
        }
        let inside = change(&piece[4..]);
        if !inside.is_empty() {
            list.extend([33, 4 + inside.len() as u8, piece[2], piece[3]]);
            list.extend(inside);
        }
    }
    list
}

/// What is inside all EXRS of a well-formed include list, back to back.
pub fn inside_exrs(include: &[u8]) -> Vec<u8> {
    let mut pieces = subobjects(include);
    pieces.retain(|piece| piece[0] == 33);
    pieces
        .iter()
        .flat_map(|piece| &piece[4..])
        .copied()
        .collect()
}

/// Whether some exclusion of an accepted request has X set.
pub fn some_desired(request: &Request) -> bool {
    any_desired(request.exclude) || any_desired(&inside_exrs(request.include))
}

/// The two lists with the exclusions alone that count in a round, all of them
/// demanded. An accepted list crosses the same domains without its EXRS.
pub fn in_round(request: &Request, round: u32) -> (Vec<u8>, Vec<u8>) {
    let change = match round {
        1 => all_demanded,
        _ => demanded_alone,
    };
    (
        changed_inside(request.include, change),
        change(request.exclude),
    )
}

/// Whether some exclusion of a well-formed list has X set.
pub fn any_desired(list: &[u8]) -> bool {
    subobjects(list).iter().any(|piece| piece[0] >= 0x80)
}

/// The list with X clear in every subobject: the first round's exclusions.
pub fn all_demanded(list: &[u8]) -> Vec<u8> {
    let clear = |piece: &[u8]| [&[piece[0] & 0x7F], &piece[1..]].concat();
    subobjects(list).into_iter().flat_map(clear).collect()
}

/// The subobjects of X clear alone: the second round's exclusions.
pub fn demanded_alone(list: &[u8]) -> Vec<u8> {
    let mut pieces = subobjects(list);
    pieces.retain(|piece| piece[0] < 0x80);
    pieces.concat()
}

/// What leaves the first round without an admissible path.
#[derive(Clone, Copy, Debug, PartialEq, Eq, PartialOrd, Ord)]
pub enum Emptied {
    /// There would be a path without any.
    ByExclusions,
    /// It has paths, and all cost more.
    ByTheBound,
    /// There is no path even without both.
    ByNeither,
}

/// How a request's round comes about.
#[derive(Clone, Copy, Debug, PartialEq, Eq, PartialOrd, Ord)]
pub enum Decided {
    /// Round 1 has a path, and no exclusion is desired.
    AtOnce,
    /// Round 1 has a path, though some exclusion is desired.
    ForTheFirst,
    /// Round 1 has no path, and no exclusion is desired.
    WithoutASecond(Emptied),
    /// Round 2 has a path.
    ForTheSecond(Emptied),
    /// Round 2 has no path either.
    InVain(Emptied),
}

impl Decided {
    /// `has_path` says whether first has a path for a request. The answer is
    /// worked out from requests of which none has a second round, but for the
    /// last question: whether this one has a path.
    pub fn of(request: &Request, has_path: impl Fn(&Request) -> bool) -> Decided {
        let (include, exclude) = in_round(request, 1);
        let first = Request {
            include: &include,
            exclude: &exclude,
            ..*request
        };
        let desired = some_desired(request);
        if has_path(&first) {
            return match desired {
                true => Decided::ForTheFirst,
                false => Decided::AtOnce,
            };
        }
        let emptied = Emptied::of(&first, &has_path);
        match (desired, has_path(request)) {
            (false, _) => Decided::WithoutASecond(emptied),
            (true, true) => Decided::ForTheSecond(emptied),
            (true, false) => Decided::InVain(emptied),
        }
    }

    /// The round that applies.
    pub fn round(self) -> u32 {
        match self {
            Decided::ForTheSecond(_) | Decided::InVain(_) => 2,
            _ => 1,
        }
    }
}

impl Emptied {
    /// For a request that has no path and no exclusion of X set.
    fn of(request: &Request, has_path: impl Fn(&Request) -> bool) -> Emptied {
        let unbounded = Request {
            bound_counts: false,
            ..*request
        };
        let include = changed_inside(request.include, |_| Vec::new());
        let free = Request {
            include: &include,
            exclude: &[],
            ..unbounded
        };
        match (has_path(&unbounded), has_path(&free)) {
            (true, _) => Emptied::ByTheBound,
            (_, true) => Emptied::ByExclusions,
            _ => Emptied::ByNeither,
        }
    }
}

impl Display for Decided {
    fn fmt(&self, f: &mut Formatter) -> Result {
        let (what, emptied) = match self {
            Decided::AtOnce => return f.write_str("round 1, a path, nothing desired"),
            Decided::ForTheFirst => return f.write_str("(a) round 1, a path, some desired"),
            Decided::WithoutASecond(by) => ("(b) round 1, no path, nothing desired", by),
            Decided::ForTheSecond(by) => ("(c) round 2, a path", by),
            Decided::InVain(by) => ("(d) round 2, no path", by),
        };
        let by = match emptied {
            Emptied::ByExclusions => "exclusions",
            Emptied::ByTheBound => "the bound",
            Emptied::ByNeither => "neither exclusions nor the bound",
        };
        write!(f, "{what}; round 1 emptied by {by}")
    }
}

/// How often each came up.
#[derive(Default)]
pub struct Outcomes(BTreeMap<Decided, usize>);

impl Outcomes {
    pub fn add(&mut self, decided: Decided) {
        *self.0.entry(decided).or_default() += 1;
    }

    fn cases(&self, of: impl Fn(&Decided) -> bool) -> usize {
        let counts = self.0.iter().filter(|(decided, _)| of(decided));
        counts.map(|(_, count)| count).sum()
    }

    /// Prints the counts. Each of (a) to (d) came up `often` times or more, and
    /// `least` times or more with either thing that empties the first round.
    #[track_caller]
    pub fn cover(&self, run: &str, often: usize, least: usize) {
        use Decided::{ForTheFirst, ForTheSecond, InVain, WithoutASecond};
        println!("\n{run}: {} cases", self.cases(|_| true));
        for (decided, count) in &self.0 {
            println!("{count:>8}  {decided}");
        }
        let totals = [
            self.cases(|decided| *decided == ForTheFirst),
            self.cases(|decided| matches!(decided, WithoutASecond(_))),
            self.cases(|decided| matches!(decided, ForTheSecond(_))),
            self.cases(|decided| matches!(decided, InVain(_))),
        ];
        println!("(a) to (d): {totals:?}");
        assert!(totals.iter().all(|&cases| cases >= often), "{run}");
        for kind in [WithoutASecond, ForTheSecond, InVain] {
            for by in [Emptied::ByExclusions, Emptied::ByTheBound] {
                let cases = self.cases(|decided| *decided == kind(by));
                assert!(cases >= least, "{run}: {cases} cases of {}", kind(by));
            }
        }
        // What neither empties can't be filled by dropping exclusions.
        let filled = self.cases(|decided| *decided == ForTheSecond(Emptied::ByNeither));
        assert_eq!(filled, 0, "{run}");
    }
}
