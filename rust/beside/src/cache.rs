//! What a processor keeps: upper entries, as walks half done, and finished translations of whole pages. Never that an address
//! has nothing.

use crate::walk::Walk;
use operations::LookedUp;

const KEPT: usize = 32;

/// Which upper entries INVLPG drops.
#[derive(Clone, Copy, PartialEq, Eq)]
pub enum Upper {
    /// All of them, as Intel's does.
    All,
    /// Those that lead to the address, as AMD's does where EFER.TCE is set.
    Leading,
}

/// A translation, and the clock when it was kept.
#[derive(Clone, Copy)]
pub struct Translation {
    pub page: LookedUp,
    pub at: u64,
}

impl Translation {
    fn serves(&self, va: u64) -> bool {
        va.wrapping_sub(self.page.base) < self.page.size
    }
}

pub struct Cache {
    upper: [Option<Walk>; KEPT],
    pages: [Option<Translation>; KEPT],
}

impl Cache {
    pub fn new() -> Cache {
        Cache { upper: [None; KEPT], pages: [None; KEPT] }
    }

    /// Any of those that serve the address: the first from this place on.
    pub fn upper(&self, va: u64, from: usize) -> Option<Walk> {
        (0..KEPT).find_map(|more| self.upper[(from + more) % KEPT]?.serves(va))
    }

    pub fn page(&self, va: u64, from: usize) -> Option<Translation> {
        (0..KEPT).find_map(|more| self.pages[(from + more) % KEPT].filter(|kept| kept.serves(va)))
    }

    pub fn keep_upper(&mut self, place: usize, walk: Walk) {
        self.upper[place % KEPT] = Some(walk);
    }

    pub fn keep_page(&mut self, place: usize, page: LookedUp, at: u64) {
        self.pages[place % KEPT] = Some(Translation { page, at });
    }

    /// INVLPG of this address, the one part of it and the other.
    pub fn drop_page(&mut self, va: u64) {
        drop_some(&mut self.pages, |kept| kept.serves(va));
    }

    pub fn drop_upper(&mut self, va: u64, which: Upper) {
        drop_some(&mut self.upper, |kept| which == Upper::All || kept.leads_to(va));
    }
}

fn drop_some<T>(kept: &mut [Option<T>], told: impl Fn(&T) -> bool) {
    for kept in kept.iter_mut() {
        if kept.as_ref().is_some_and(&told) {
            *kept = None;
        }
    }
}
