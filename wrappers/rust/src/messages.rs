//! A PCReq put to a profile as it is.

use crate::calls::messages::{self as calls, Carried};
use crate::paths::{self, At};
use crate::pcreq::destination_of;
use crate::tree::grown;
use crate::{Call, Path, Profile, Refusal, Tree};
use std::net::Ipv4Addr;

impl Profile {
    /// The tree of the request that a PCReq carries.
    pub fn pcreq_tree(&self, ingress: u16, message: &[u8]) -> Result<Tree, Refusal> {
        let asked = self.carried(ingress, message);
        grown(Call::PcreqTree, |room, numbers| {
            calls::pcreq_tree(
                asked,
                &mut room.level,
                &mut room.address,
                &mut room.reachable,
                &mut room.cost,
                numbers,
            )
        })
    }

    /// The first of its shortest paths, if there is one.
    pub fn pcreq_first(&self, ingress: u16, message: &[u8]) -> Result<Option<Path>, Refusal> {
        let asked = self.carried(ingress, message);
        paths::first(
            Call::PcreqFirst,
            destination_of(message),
            |path, numbers| calls::pcreq_first(asked, path, numbers),
        )
    }

    /// The next of them after a given list, as `next` gives it.
    pub fn pcreq_next(
        &self,
        ingress: u16,
        message: &[u8],
        after: &[Ipv4Addr],
    ) -> Result<Option<Path>, Refusal> {
        let asked = self.carried(ingress, message);
        paths::next(Call::PcreqNext, after, |given, path, numbers| {
            calls::pcreq_next(asked, given, path, numbers)
        })
    }

    /// Every one of them, in order, each found when it is asked for.
    pub fn pcreq_paths<'a>(
        &'a self,
        ingress: u16,
        message: &'a [u8],
    ) -> Result<PcreqPaths<'a>, Refusal> {
        let first = self.pcreq_first(ingress, message)?;
        Ok(PcreqPaths {
            profile: self,
            ingress,
            message,
            at: first.map_or(At::End, At::First),
        })
    }

    fn carried<'a>(&'a self, ingress: u16, message: &'a [u8]) -> Carried<'a> {
        Carried {
            profile: &self.0,
            ingress,
            message,
        }
    }
}

/// The shortest paths of a PCReq, from the first on.
#[derive(Clone, Debug)]
pub struct PcreqPaths<'a> {
    profile: &'a Profile,
    ingress: u16,
    message: &'a [u8],
    at: At,
}

impl Iterator for PcreqPaths<'_> {
    type Item = Path;

    fn next(&mut self) -> Option<Path> {
        let (ingress, message) = (self.ingress, self.message);
        self.at
            .step(|last| self.profile.pcreq_next(ingress, message, last))
    }
}
