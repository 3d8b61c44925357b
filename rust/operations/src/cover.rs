//! What was asked: so that a run which never came to some size, reason or edge does not pass for a test of it.

use crate::ledger::{is_address, is_both, Ledger, GIB1, KIB4, LOWER, MIB2, PHYSICAL, SIZES, UPPER};
use crate::steps::Setup;
use crate::{reasons, Answer, Request, REASONS};
use std::collections::BTreeMap;

/// What a run is asked.
#[derive(Clone, Copy, PartialEq, Eq)]
pub enum Sort {
    /// Anything, of tables that are in order.
    Sound,
    /// Of these, only what one that is raw may be asked.
    Valid,
    /// Anything, of bytes that are damaged.
    Damaged,
}

const ENDS: [&str; 6] = [
    "first page of all",
    "last page of the lower half",
    "first page of the upper half",
    "last page of all",
    "in the lower half",
    "in the upper half",
];

/// What is of interest in the ledger as it is before a request.
#[derive(Clone, Copy)]
pub struct Before {
    /// How many pages are free.
    free: u64,
    /// Is the page writable and executable that is to be unmapped or protected?
    both: bool,
}

impl Before {
    pub fn new(ledger: &Ledger, request: &Request) -> Before {
        let both = match *request {
            Request::Unmap { base, .. } | Request::Protect { base, .. } => is_both(ledger.means(base).rights),
            _ => false,
        };
        Before { free: ledger.free, both }
    }
}

#[derive(Default)]
pub struct Cover {
    pub asked: u64,
    counts: BTreeMap<String, u64>,
}

fn name(size: u64) -> &'static str {
    match size {
        KIB4 => "4 KiB",
        MIB2 => "2 MiB",
        GIB1 => "1 GiB",
        _ => "?",
    }
}

impl Cover {
    fn add(&mut self, what: impl Into<String>) {
        *self.counts.entry(what.into()).or_insert(0) += 1;
    }

    /// The ledger is as it is after the answer.
    pub fn note(
        &mut self,
        setup: &Setup,
        request: &Request,
        answer: &Answer,
        before: Option<Before>,
        ledger: Option<&Ledger>,
    ) {
        self.asked += 1;
        self.add(match setup.pages {
            3 => "pool of 3 pages",
            4..=9 => "pool of 4 to 9",
            10..=99 => "pool of 10 to 99",
            100..=248 => "pool of 100 to 248",
            _ => "pool with a book of several pages",
        });
        if answer.reason() != 0 {
            let reason = REASONS.get(answer.reason() as usize).unwrap_or(&"?");
            self.add(format!("{} {reason}", request.name()));
        }
        if before.is_some_and(|before| before.both) {
            let reason = REASONS.get(answer.reason() as usize).unwrap_or(&"?");
            self.add(format!("{} of an old page, {reason}", request.name()));
        }
        match (*request, *answer) {
            (Request::Map { base, frame, size, .. }, Answer::Mapped(mapped)) => match mapped.reason {
                reasons::DONE => {
                    self.add(format!("map {}, {} tables", name(size), mapped.tables));
                    if let Some(ledger) = ledger {
                        if ledger.free == 0 && mapped.tables > 0 {
                            self.add(format!("map takes the last {}", mapped.tables));
                        }
                        self.edges(setup, frame, size);
                    }
                    self.ends("map", base, size);
                }
                reasons::BASE_RANGE if base == LOWER => self.add("map at 2^47"),
                reasons::BASE_RANGE if base == UPPER - size => self.add("map right below the upper half"),
                reasons::BASE_RANGE if base < 1 << 48 => self.add("map without the high bits of the upper half"),
                reasons::FRAME_IN_POOL => self.frame_in_pool(setup, frame, size),
                reasons::NO_ROOM => {
                    if let (Some(ledger), Some(Before { free, .. })) = (ledger, before) {
                        self.add(format!("map NoRoom, {} missing, {free} free", ledger.missing(base, size)));
                    }
                }
                _ => {}
            },
            (Request::Unmap { base, .. }, Answer::Unmapped(unmapped)) if unmapped.reason == 0 => {
                self.ends("unmap", base, unmapped.size);
                self.add(format!("unmap {}, {} set aside", name(unmapped.size), unmapped.aside));
            }
            (Request::Protect { base, .. }, Answer::Protected(protected)) if protected.reason == 0 => {
                self.ends("protect", base, protected.size);
                self.add(format!("protect {}", name(protected.size)));
            }
            (Request::Told { .. }, Answer::Told(told)) if told.reason == 0 => {
                let rest = ledger.map_or(0, |ledger| ledger.aside);
                self.add(match (told.released, rest) {
                    (0, _) => "told, none",
                    (_, 0) => "told, all",
                    _ => "told, some",
                });
            }
            (Request::Create { .. }, Answer::Created(created)) if created.reason == 0 => self.add("create done"),
            (Request::LookUp { .. }, Answer::LookedUp(found)) => {
                self.add(
                    ["look_up nothing", "look_up page", "look_up outside", "?", "?", "look_up no address"]
                        [found.kind as usize],
                );
                if found.kind == 1 && is_both(found.rights) {
                    self.add("look_up an old page");
                }
                if found.kind == 1 {
                    self.ends("look_up", found.base, found.size);
                }
            }
            _ => {}
        }
    }

    /// Where a page lies: in which half, and whether it is its first or its last.
    fn ends(&mut self, what: &str, base: u64, size: u64) {
        debug_assert!(is_address(base));
        let last = base + (size - 1);
        let ends = [base == 0, last == LOWER - 1, base == UPPER, last == u64::MAX, base < LOWER, base >= UPPER];
        for (end, holds) in ENDS.into_iter().zip(ends) {
            if holds {
                self.add(format!("{what} {end}, {}", name(size)));
            }
        }
    }

    fn edges(&mut self, setup: &Setup, frame: u64, size: u64) {
        let end = setup.space().end();
        let edges = [
            ("first frame", frame == 0),
            ("last frame", frame + size == PHYSICAL),
            ("frame right before the pool", frame + size == setup.pool),
            ("frame right after the pool", frame == end),
        ];
        for (edge, holds) in edges {
            if holds {
                self.add(format!("{edge}, {}", name(size)));
            }
        }
    }

    fn frame_in_pool(&mut self, setup: &Setup, frame: u64, size: u64) {
        let end = setup.space().end();
        if frame + size == setup.pool + KIB4 {
            self.add(format!("frame meets the pool's first page, {}", name(size)));
        }
        if frame + KIB4 == end {
            self.add(format!("frame meets the pool's last page, {}", name(size)));
        }
        if frame < setup.pool && end < frame + size {
            self.add(format!("frame covers the pool, {}", name(size)));
        }
    }

    /// What there has to be, how often in 100,000 requests at least, and how often it was.
    pub fn lines(&self, sort: Sort) -> Vec<(String, u64, u64)> {
        let mut needed: Vec<(String, u64)> = vec![];
        let mut need = |least: u64, what: String| needed.push((what, least));
        for (size, most) in SIZES.into_iter().zip([3, 2, 1]) {
            for tables in 0..=most {
                need(50, format!("map {}, {tables} tables", name(size)));
                need(25, format!("unmap {}, {tables} set aside", name(size)));
            }
            need(50, format!("protect {}", name(size)));
        }
        for told in ["none", "all"] {
            need(100, format!("told, {told}"));
        }
        need(100, "look_up nothing".into());
        need(100, "look_up page".into());
        need(50, "look_up no address".into());
        need(5, "look_up an old page".into());
        for request in ["unmap", "protect"] {
            need(200, format!("{request} NothingStarts"));
            need(20, format!("{request} BaseRange"));
        }
        for size in SIZES.map(name) {
            for (request, least) in [("map", 20), ("unmap", 10), ("protect", 3), ("look_up", 1)] {
                for end in ENDS.into_iter().filter(|_| sort != Sort::Damaged) {
                    need(least, format!("{request} {end}, {size}"));
                }
            }
        }
        for reason in ["Overlap", "NoRoom"] {
            need(300, format!("map {reason}"));
        }
        if sort != Sort::Damaged {
            need(100, "told, some".into());
            for missing in 1..=3 {
                need(20, format!("map takes the last {missing}"));
                for free in 0..missing {
                    need(20, format!("map NoRoom, {missing} missing, {free} free"));
                }
            }
            for size in SIZES.map(name) {
                need(25, format!("first frame, {size}"));
                need(25, format!("last frame, {size}"));
                need(5, format!("frame right before the pool, {size}"));
                need(5, format!("frame right after the pool, {size}"));
            }
            for (request, least) in [("unmap", 50), ("protect", 10)] {
                need(least, format!("{request} of an old page, done"));
            }
            for pool in ["of 3 pages", "of 4 to 9", "of 10 to 99", "of 100 to 248", "with a book of several pages"] {
                need(300, format!("pool {pool}"));
            }
        }
        if sort != Sort::Valid {
            for reason in &REASONS[reasons::SIZE as usize..=reasons::FRAME_IN_POOL as usize] {
                need(50, format!("map {reason}"));
            }
            for request in ["map", "unmap", "protect", "told"] {
                for reason in &REASONS[reasons::POOL_UNALIGNED as usize..=reasons::BAD_ROOT as usize] {
                    need(5, format!("{request} {reason}"));
                }
            }
            for reason in
                ["OriginUnaligned", "LengthUnaligned", "PoolUnaligned", "PoolLarge", "PoolSmall", "PoolOutside"]
            {
                need(5, format!("create {reason}"));
            }
            need(500, "map WriteExecute".into());
            need(100, "protect WriteExecute".into());
            need(20, "told UnknownTicket".into());
            need(2, "told SpentTickets".into());
        }
        if sort == Sort::Sound {
            need(2, "protect of an old page, WriteExecute".into());
            need(20, "map at 2^47".into());
            need(20, "map right below the upper half".into());
            need(20, "map without the high bits of the upper half".into());
            need(100, "frame meets the pool's first page, 4 KiB".into());
            need(100, "frame meets the pool's last page, 4 KiB".into());
            for size in SIZES.map(name).into_iter().skip(1) {
                need(2, format!("frame meets the pool's first page, {size}"));
                need(2, format!("frame meets the pool's last page, {size}"));
                need(5, format!("frame covers the pool, {size}"));
            }
        }
        if sort == Sort::Damaged {
            for request in ["map", "unmap", "told"] {
                for reason in ["NoBook", "OtherBook", "BadBook"] {
                    need(10, format!("{request} {reason}"));
                }
            }
            for request in ["map", "unmap", "protect"] {
                need(30, format!("{request} Stray"));
            }
            need(50, "map BadList".into());
            need(20, "look_up outside".into());
            need(100, "create done".into());
        }
        let count = |what: &str| self.counts.get(what).copied().unwrap_or(0);
        needed.into_iter().map(|(what, least)| (what.clone(), least, count(&what))).collect()
    }
}
