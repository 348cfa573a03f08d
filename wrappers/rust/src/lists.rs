//! Domain lists: sequences of domains, read and written.

use crate::refusal::unless_refused;
use crate::{calls, Call, Profile, Refusal};
use std::net::Ipv4Addr;

const MOST_DOMAINS: usize = 16;
const MOST_LIST_BYTES: usize = 1024;

/// A domain of a sequence, the node to enter it through, if one is set, and its
/// EXRS, what is excluded for it alone.
#[derive(Clone, Debug, PartialEq, Eq)]
pub struct Stop {
    pub domain: u16,
    pub pin: Option<Ipv4Addr>,
    /// Whole EXRS, back to back: `write_exrs` makes one, `read_exrs` takes them
    /// apart. The first domain has none.
    pub exrs: Vec<u8>,
}

impl Stop {
    /// A domain to be entered anywhere, with no EXRS.
    pub fn new(domain: u16) -> Self {
        Stop {
            domain,
            pin: None,
            exrs: Vec::new(),
        }
    }
}

impl Profile {
    /// The sequence of domains that an include list means.
    pub fn read_include(&self, ingress: u16, include: &[u8]) -> Result<Vec<Stop>, Refusal> {
        let mut room = Parts::room();
        let mut numbers = [0; 3];
        let number = calls::read_include(&self.0, ingress, include, &mut room, &mut numbers);
        let [place, count, _] = numbers;
        unless_refused(Call::ReadInclude, number, place)?;
        Ok(room.first(count))
    }

    /// The list that means this sequence, read with its first domain as ingress.
    pub fn write_list(&self, stops: &[Stop]) -> Result<Vec<u8>, Refusal> {
        let mut list = vec![0; MOST_LIST_BYTES];
        let mut numbers = [0; 2];
        let number = calls::write_list(&self.0, &Parts::of(stops), &mut list, &mut numbers);
        let [place, length] = numbers;
        unless_refused(Call::WriteList, number, place)?;
        list.truncate(length as usize);
        Ok(list)
    }
}

/// The domains of a sequence, part by part; `exrs` has the EXRS of all of them.
pub(crate) struct Parts {
    pub domains: Vec<u16>,
    pub pinned: Vec<u8>,
    pub pins: Vec<u32>,
    pub exrs_counts: Vec<u32>,
    pub exrs: Vec<u8>,
}

impl Parts {
    /// Room for those of any list.
    fn room() -> Self {
        Parts {
            domains: vec![0; MOST_DOMAINS],
            pinned: vec![0; MOST_DOMAINS],
            pins: vec![0; MOST_DOMAINS],
            exrs_counts: vec![0; MOST_DOMAINS],
            exrs: vec![0; MOST_LIST_BYTES],
        }
    }

    fn of(stops: &[Stop]) -> Self {
        let pin = |stop: &Stop| stop.pin.map_or(0, u32::from);
        // One that doesn't fit a count has more bytes than a list, whatever it
        // counts as.
        let count = |stop: &Stop| u32::try_from(stop.exrs.len()).unwrap_or(u32::MAX);
        Parts {
            domains: stops.iter().map(|stop| stop.domain).collect(),
            pinned: stops.iter().map(|stop| stop.pin.is_some().into()).collect(),
            pins: stops.iter().map(pin).collect(),
            exrs_counts: stops.iter().map(count).collect(),
            exrs: stops.iter().flat_map(|stop| &stop.exrs).copied().collect(),
        }
    }

    fn first(&self, count: u32) -> Vec<Stop> {
        let mut rest = &self.exrs[..];
        let stop = |i: usize| {
            let (exrs, after) = rest.split_at(self.exrs_counts[i] as usize);
            rest = after;
            Stop {
                domain: self.domains[i],
                pin: (self.pinned[i] == 1).then(|| self.pins[i].into()),
                exrs: exrs.to_vec(),
            }
        };
        (0..count as usize).map(stop).collect()
    }
}

#[cfg(test)]
mod tests {
    use super::*;

    const W: &[u8] = include_bytes!("../../../examples/w.dsp");

    /// An EXRS with AS 9, then AS 64497.
    const LIST: &[u8] = &[33, 8, 0, 0, 32, 4, 0, 9, 32, 4, 0xFB, 0xF1];

    /// Just the room that the list needs, but for what a change takes away.
    fn read_into(change: impl FnOnce(&mut Parts)) -> (u32, [u32; 3], Parts) {
        let mut room = Parts {
            domains: vec![77; 2],
            pinned: vec![77; 2],
            pins: vec![77; 2],
            exrs_counts: vec![77; 2],
            exrs: vec![77; 8],
        };
        change(&mut room);
        let mut numbers = [0; 3];
        let number = calls::read_include(W, 0, LIST, &mut room, &mut numbers);
        (number, numbers, room)
    }

    /// 34 can't come up through `Profile`, which lends enough for every list.
    #[test]
    fn too_little_room() {
        let changes: [fn(&mut Parts); 5] = [
            |room| room.domains.truncate(1),
            |room| room.pinned.truncate(1),
            |room| room.pins.truncate(1),
            |room| room.exrs_counts.truncate(1),
            |room| room.exrs.truncate(7),
        ];
        for change in changes {
            let (number, numbers, room) = read_into(change);
            assert_eq!((number, numbers), (34, [0; 3]));
            assert!(room.exrs.iter().all(|&byte| byte == 77));
            assert!(room.exrs_counts.iter().all(|&count| count == 77));
        }
        let (number, numbers, room) = read_into(|_| ());
        assert_eq!((number, numbers), (0, [0, 2, 8]));
        let exrs = LIST[..8].to_vec();
        let second = Stop {
            exrs,
            ..Stop::new(1)
        };
        assert_eq!(room.first(2), [Stop::new(0), second]);
        let meaning = "a buffer has fewer elements than the sequence has domains, \
            or fewer than its EXRS have bytes";
        let refusal = unless_refused(Call::ReadInclude, 34, 0).unwrap_err();
        assert_eq!(refusal.meaning(), meaning);
    }
}
