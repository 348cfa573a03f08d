//! Sequences for the writer.

use super::damage::planned;
use super::draft::Draft;
use super::lists::{entry_node, route};
use super::random::Random;
use super::shapes;
use crate::check::check;
use crate::outcome::NotDone;
use crate::writer;

/// What `write_list` takes, with the buffer to lend.
#[derive(Clone, Debug)]
pub struct WriteCase {
    pub profile: Vec<u8>,
    pub domains: Vec<u16>,
    pub pinned: Vec<u8>,
    pub pins: Vec<u32>,
    pub exrs_counts: Vec<u32>,
    pub exrs: Vec<u8>,
    pub out: Vec<u8>,
}

impl WriteCase {
    /// How long the list is that the sequence is written as, if it can be.
    pub fn written(&self) -> Result<usize, NotDone> {
        let profile = check(&self.profile)?;
        let stops = writer::gather(
            &profile,
            &self.domains,
            &self.pinned,
            &self.pins,
            &self.exrs_counts,
            &self.exrs,
        )?;
        Ok(writer::write(&profile, &stops)?.len())
    }

    /// These bytes as the EXRS of each domain.
    pub fn set_exrs(&mut self, each: &[Vec<u8>]) {
        self.exrs_counts = each.iter().map(|bytes| bytes.len() as u32).collect();
        self.exrs = each.concat();
    }
}

/// A sequence without EXRS that the writer takes; the buffer has room for any.
pub fn valid(random: &mut Random) -> WriteCase {
    let draft = shapes::valid(random);
    of_draft(random, &draft).0
}

/// A sequence along a route of the draft, and the route.
pub fn of_draft(random: &mut Random, draft: &Draft) -> (WriteCase, Vec<usize>) {
    let ingress = random.below(draft.domains.len());
    let route = match random.chance(1, 2) {
        true => route(random, draft, ingress, 16),
        false => shapes::shuffled(random, draft.domains.len())
            .into_iter()
            .take(16)
            .collect(),
    };
    let constrained = random.between(0, 4);
    let pinned: Vec<u8> = (0..route.len())
        .map(|i| u8::from(i > 0 && random.chance(constrained, 4)))
        .collect();
    // What stands where there is no entry constraint is not looked at.
    let pins = (0..route.len())
        .map(|i| entry_node(random, draft, route[i.saturating_sub(1)], route[i]))
        .collect();
    let case = WriteCase {
        profile: draft.encode(),
        domains: route.iter().map(|&d| d as u16).collect(),
        pinned,
        pins,
        exrs_counts: vec![0; route.len()],
        exrs: Vec::new(),
        out: random.bytes(1_100),
    };
    (case, route)
}

/// A sequence of any kind without EXRS.
pub fn any(random: &mut Random) -> WriteCase {
    let mut case = valid(random);
    spoil(random, &mut case);
    lend(random, &mut case);
    case
}

/// Makes a sequence one that can't be written, now and then.
pub fn spoil(random: &mut Random, case: &mut WriteCase) {
    match random.below(36) {
        0..=4 => case.profile = planned(random).bytes,
        5 => resize(case, 0),
        6 => over_16(random, case),
        7..=8 => {
            let at = random.below(case.domains.len());
            let count = case.profile[7];
            case.domains[at] = random.pick(&[u16::from(count), 64, 255, u16::MAX]);
        }
        9 => {
            let again = random.pick(&case.domains);
            case.domains.push(again);
            let count = case.domains.len();
            resize(case, count);
        }
        10 => case.pinned[0] = 1,
        11 => case.pins.push(7),
        12 => case.pinned.truncate(case.domains.len() - 1),
        13 => {
            let at = random.below(case.pinned.len());
            case.pinned[at] = random.between(2, 255) as u8;
        }
        _ => {}
    }
}

fn resize(case: &mut WriteCase, count: usize) {
    case.domains.resize(count, 0);
    case.pinned.resize(count, 0);
    case.pins.resize(count, 0);
    case.exrs_counts.resize(count, 0);
}

/// Seventeen domains or more, different where the profile has so many.
fn over_16(random: &mut Random, case: &mut WriteCase) {
    let count = random.between(17, 20);
    case.domains = (0..count as u16).collect();
    resize(case, count);
}

/// A buffer around the length that is needed.
pub fn lend(random: &mut Random, case: &mut WriteCase) {
    let capacity = random.capacity(case.written().unwrap_or(40));
    case.out = random.bytes(capacity);
}
