//! A walking processor: several walks at once, each of which reads one entry at a time, and a cache. It does the INVLPGs of the
//! shootdowns that it is told of when it likes, and nothing else ever makes it drop anything.
//! It allocates nothing while it walks, so that it can also walk in the midst of an interrupt.

use crate::cache::{Cache, Upper};
use crate::flaw::Flaw;
use crate::log::{From, Seen, Tally};
use crate::memory::Shared;
use crate::scene::Sight;
use crate::shootdowns::{Mailbox, Orders};
use crate::walk::{Next, Walk, OUTSIDE};
use operations::random::Random;
use std::sync::atomic::{fence, AtomicU64, Ordering::Acquire, Ordering::SeqCst};

const WALKS: usize = 8;

#[derive(Clone, Copy)]
struct Running {
    walk: Walk,
    seen: Seen,
    /// Whether it has read anything yet.
    fresh: bool,
}

pub struct Onlooker<'a> {
    sight: &'a Sight,
    memory: Shared,
    clock: &'a AtomicU64,
    pub random: Random,
    walks: [Option<Running>; WALKS],
    cache: Cache,
    /// Does it keep anything, and which upper entries does INVLPG drop?
    caches: bool,
    upper: Upper,
    orders: Orders<'a>,
    flaw: Flaw,
    /// When the last shootdown began that is done, and by watched address the last of those that told it.
    last: u64,
    told: Vec<u64>,
    /// Of walks beside which nothing was under way, one in so many is judged; of those from the cache, four times as many.
    pub quiet: u64,
    pub seen: Vec<Seen>,
    pub counts: Tally,
}

impl<'a> Onlooker<'a> {
    pub fn new(
        sight: &'a Sight,
        memory: Shared,
        clock: &'a AtomicU64,
        mailbox: &'a Mailbox,
        upper: Upper,
        seed: u64,
        room: usize,
    ) -> Onlooker<'a> {
        Onlooker {
            sight,
            memory,
            clock,
            random: Random::new(seed, 1),
            walks: [None; WALKS],
            cache: Cache::new(),
            caches: true,
            upper,
            orders: Orders::new(mailbox),
            flaw: Flaw::None,
            last: 0,
            told: vec![0; sight.watched.len()],
            quiet: 1,
            seen: Vec::with_capacity(room),
            counts: Tally::default(),
        }
    }

    pub fn with(mut self, caches: bool, flaw: Flaw) -> Onlooker<'a> {
        (self.caches, self.flaw) = (caches, flaw);
        self
    }

    pub fn is_full(&self) -> bool {
        self.seen.len() + 2 * WALKS >= self.seen.capacity()
    }

    /// The clock is read after the last entry, whatever the processor would rather do.
    fn now(&self) -> u64 {
        fence(Acquire);
        self.clock.load(SeqCst)
    }

    /// A new walk, or at once an answer from the cache.
    fn begin(&mut self) -> Option<Running> {
        let which = self.random.index(self.sight.watched.len());
        let va = self.sight.watched[which];
        let (how, place) = (if self.caches { self.random.below(4) } else { 3 }, self.random.index(1 << 16));
        if let Some(kept) = self.cache.page(va, place).filter(|_| how == 0) {
            let (clock, since, outlived) = (self.now(), self.told[which], kept.at < self.last);
            let (from, answer) = (From::Translation, kept.page);
            self.note(Seen { which, from, began: clock, since, until: clock, answer, outlived });
            return None;
        }
        let kept = self.cache.upper(va, place).filter(|_| how == 1);
        let from = if kept.is_some() { From::Upper } else { From::Root };
        let seen = Seen { which, from, began: 0, since: 0, until: 0, answer: OUTSIDE, outlived: false };
        Some(Running { walk: kept.unwrap_or(Walk::begin(self.sight.root, va)), seen, fresh: true })
    }

    fn note(&mut self, seen: Seen) {
        let quiet = seen.began == seen.until && seen.until % 2 == 0;
        let of = if seen.from == From::Root { self.quiet } else { self.quiet.div_ceil(4) };
        if !quiet || self.random.chance(1, of) {
            self.seen.push(seen);
        }
    }

    /// Keeps now and then what a walk has found.
    fn keeps(&mut self) -> Option<usize> {
        (self.caches && self.random.chance(1, 4)).then(|| self.random.index(1 << 16))
    }

    /// One read of one walk; where it ends, a new one takes its place.
    fn step(&mut self, place: usize) {
        let Some(mut running) = self.walks[place].or_else(|| self.begin()) else { return };
        if running.fresh {
            running.fresh = false;
            running.seen.began = self.clock.load(SeqCst);
        }
        let next = match self.memory.read(running.walk.at()) {
            Some(word) => running.walk.step(word),
            None => Next::Ends(OUTSIDE),
        };
        self.walks[place] = match next {
            Next::On(walk) => {
                if let Some(place) = self.keeps() {
                    self.cache.keep_upper(place, walk);
                }
                Some(Running { walk, ..running })
            }
            Next::Ends(answer) => {
                let (until, began) = (self.now(), running.seen.began);
                if let Some(place) = self.keeps().filter(|_| answer.kind == 1) {
                    self.cache.keep_page(place, answer, until);
                }
                // What went on from an upper entry holds since the last shootdown began: that left no entry on a way that was cut.
                let since = if running.seen.from == From::Upper { self.last } else { began };
                self.note(Seen { until, answer, since, ..running.seen });
                None
            }
        };
    }

    /// So many reads, each of any walk; and before them, now and then, some INVLPGs.
    pub fn turn(&mut self, reads: u64) {
        if self.random.chance(1, 4) {
            self.obey();
        }
        for _ in 0..reads {
            if self.is_full() {
                return;
            }
            // Most reads are of the first walks; the last ones are slow, and much happens while they run.
            let place = self.random.index(WALKS).min(self.random.index(WALKS));
            if place < WALKS / 2 || self.random.chance(1, 32) {
                self.step(place);
            }
        }
    }

    /// Some INVLPGs of a shootdown, any of those under way: all that are left, or fewer.
    fn obey(&mut self) {
        let Some(number) = self.orders.any(&mut self.random) else { return };
        while let Some((page, began)) = self.orders.page(number, &mut self.random) {
            let (base, size) = self.sight.pages[page];
            let va = base + self.random.below(size);
            self.invlpg(va, began);
            if self.random.chance(1, 4) {
                return;
            }
        }
        self.counts.overtaken += u64::from(self.orders.finish(number));
        while let Some(done) = self.orders.count() {
            self.last = done.began;
            for which in self.sight.told(done.pages) {
                self.told[which] = done.began;
            }
        }
    }

    /// One address of the page is named, and that is enough. Walks end of which the upper entries must be dropped; one from the
    /// root that began after the shootdown did may go on.
    fn invlpg(&mut self, va: u64, began: u64) {
        self.counts.invlpgs += 1;
        for place in 0..WALKS {
            let Some(running) = self.walks[place] else { continue };
            let young = running.seen.from == From::Root && running.seen.began >= began;
            let spared = self.flaw == Flaw::ToldBeforeWalksEnd || young && self.random.chance(1, 2);
            if !spared && (self.upper == Upper::All || running.walk.leads_to(va)) {
                self.finish_one(place);
            }
        }
        self.cache.drop_page(va);
        if self.flaw != Flaw::InvlpgKeepsUpper {
            self.cache.drop_upper(va, self.upper);
        }
    }

    fn finish_one(&mut self, place: usize) {
        while self.walks[place].is_some() {
            self.step(place);
        }
    }

    pub fn finish(&mut self) {
        (0..WALKS).for_each(|place| self.finish_one(place));
    }
}
