//! Shortest paths, one by one.

use crate::refusal::unless_refused;
use crate::{calls, Call, Profile, Refusal, Request};
use std::net::Ipv4Addr;

pub(crate) const MOST_ADDRESSES: usize = 17;

/// A shortest path, its total as a whole number and as the nearest float, and its
/// round.
#[derive(Clone, Debug, PartialEq)]
pub struct Path {
    pub addresses: Vec<Ipv4Addr>,
    pub total: u32,
    pub total_float: f32,
    pub round: u32,
}

impl Profile {
    /// The first of the shortest paths, if there is one.
    pub fn first(&self, request: &Request) -> Result<Option<Path>, Refusal> {
        first(Call::First, request.destination.into(), |path, numbers| {
            calls::first(&self.0, request, path, numbers)
        })
    }

    /// The next shortest path after a given list of a path's length, which need
    /// not be a path, if there is one.
    pub fn next(&self, request: &Request, after: &[Ipv4Addr]) -> Result<Option<Path>, Refusal> {
        next(Call::Next, after, |given, path, numbers| {
            calls::next(&self.0, request, given, path, numbers)
        })
    }

    /// Every shortest path, in order, each found when it is asked for.
    pub fn paths<'a>(&'a self, request: &Request<'a>) -> Result<Paths<'a>, Refusal> {
        let first = self.first(request)?;
        Ok(Paths {
            profile: self,
            request: *request,
            at: first.map_or(At::End, At::First),
        })
    }
}

/// The shortest paths of a request, from the first on.
#[derive(Clone, Debug)]
pub struct Paths<'a> {
    profile: &'a Profile,
    request: Request<'a>,
    at: At,
}

#[derive(Clone, Debug)]
pub(crate) enum At {
    First(Path),
    After(Vec<Ipv4Addr>),
    End,
}

impl Iterator for Paths<'_> {
    type Item = Path;

    fn next(&mut self) -> Option<Path> {
        self.at.step(|last| self.profile.next(&self.request, last))
    }
}

impl At {
    /// The path that one stands before. What comes after the last one told is
    /// asked for: the request was accepted, and a path has a path's length, so
    /// nothing is refused.
    pub(crate) fn step(
        &mut self,
        after: impl FnOnce(&[Ipv4Addr]) -> Result<Option<Path>, Refusal>,
    ) -> Option<Path> {
        let path = match std::mem::replace(self, At::End) {
            At::First(path) => path,
            At::After(last) => after(&last).ok()??,
            At::End => return None,
        };
        *self = At::After(path.addresses.clone());
        Some(path)
    }
}

/// What a buffer for a path is filled with before a call: anything but the
/// destination.
pub(crate) fn unlike(destination: u32) -> u32 {
    !destination
}

/// The path in such a buffer. The library leaves what lies past a path as it
/// was, and a path ends with the destination, so it ends where that stands last.
pub(crate) fn up_to_last(destination: u32, buffer: &[u32]) -> &[u32] {
    let last = buffer.iter().rposition(|&node| node == destination);
    &buffer[..last.map_or(0, |last| last + 1)]
}

/// The path that a call for the first one stores.
pub(crate) fn first(
    call: Call,
    destination: u32,
    make: impl FnOnce(&mut [u32], &mut [u32; 4]) -> u32,
) -> Result<Option<Path>, Refusal> {
    let mut path = [unlike(destination); MOST_ADDRESSES];
    let mut numbers = [0; 4];
    match make(&mut path, &mut numbers) {
        1 => Ok(None),
        number => {
            unless_refused(call, number, numbers[0])?;
            Ok(Some(found(up_to_last(destination, &path), numbers)))
        }
    }
}

/// The path that a call for the next one stores; it is as long as the list.
pub(crate) fn next(
    call: Call,
    after: &[Ipv4Addr],
    make: impl FnOnce(&[u32], &mut [u32], &mut [u32; 4]) -> u32,
) -> Result<Option<Path>, Refusal> {
    let given: Vec<u32> = after.iter().copied().map(u32::from).collect();
    let mut path = [0; MOST_ADDRESSES];
    let mut numbers = [0; 4];
    match make(&given, &mut path, &mut numbers) {
        2 => Ok(None),
        number => {
            unless_refused(call, number, numbers[0])?;
            Ok(Some(found(&path[..given.len()], numbers)))
        }
    }
}

pub(crate) fn found(addresses: &[u32], numbers: [u32; 4]) -> Path {
    let [_, total, float_bits, round] = numbers;
    Path {
        addresses: addresses.iter().copied().map(Ipv4Addr::from).collect(),
        total,
        total_float: f32::from_bits(float_bits),
        round,
    }
}
