//! The rounds of a request. The first keeps every exclusion. Where it has no
//! admissible path and some exclusion is only desired (X set), in the exclude
//! list or in an EXRS and whether or not it hits anything, a second keeps the
//! demanded ones alone.

use crate::exclusion::Exclusion;
use crate::request::{stretches, Question};

impl Question<'_> {
    /// What `search` finds in the round that applies; the question is left in
    /// that round. `total` is the least total of what is found, whatever the
    /// bound.
    pub fn settle_round<T>(
        &mut self,
        search: impl Fn(&Self) -> T,
        total: impl Fn(&T) -> Option<u32>,
    ) -> T {
        let found = search(self);
        let admissible = total(&found).is_some_and(|total| self.within_bound(total));
        if admissible || !self.relax() {
            return found;
        }
        search(self)
    }

    /// Goes on to the second round; false if there is none.
    pub fn relax(&mut self) -> bool {
        let mut all = self.exclude.iter().chain(self.exrs.iter().flatten());
        let any_desired = all.any(|s| s.desired);
        if any_desired {
            self.round = 2;
            self.exclude.retain(|s| !s.desired);
            self.exclusion = Exclusion::new(&self.profile, &self.exclude);
            for list in &mut self.exrs {
                list.retain(|s| !s.desired);
            }
            self.stretches = stretches(&self.profile, &self.stops, &self.exrs);
        }
        any_desired
    }
}
