//! Scenes at random: where the pool lies, and what is asked; most of it makes sense, and much of it is at an edge.

use crate::ledger::{EDGES, GIB1, KIB4, LOWER, MIB2, PHYSICAL, SIZES, UPPER};
use crate::random::Random;
use crate::steps::{Hints, Setup, Step};
use crate::{Request, Space};

pub struct Scene {
    pub random: Random,
    pub setup: Setup,
    /// How many steps it is worth.
    pub steps: u64,
    /// The indices of the addresses that are used, by levels.
    indices: [Vec<u64>; 4],
    /// How often each request comes.
    mood: [u64; 6],
}

/// Few pages mostly, since those run dry; sometimes hundreds.
fn pages(random: &mut Random) -> u64 {
    match random.below(64) {
        0..=9 => 3,
        10..=21 => 4 + random.below(6),
        22..=60 => 10 + random.below(30).min(random.below(90)),
        61 => 100 + random.below(149),
        62 => random.pick(&[247, 248]),
        _ => random.pick(&[249, 250, 264, 504, 505]),
    }
}

/// The pool's first page: anywhere, and where the addresses or large frames begin and end.
fn first(random: &mut Random, before: u64, pages: u64, after: u64) -> u64 {
    let (all, large) = (PHYSICAL / KIB4, GIB1 / KIB4);
    match random.below(10) {
        0 => before,
        1 => all - pages - after,
        2 | 6 => large * (1 + random.below(1000)) - random.below(2),
        3 | 4 => large * (2 + random.below(1000)) - pages + random.below(2),
        5 => MIB2 / KIB4 * (2 + random.below(1000)) + random.pick(&[0, 511]),
        _ => before + random.below(all - before - pages - after),
    }
}

impl Scene {
    pub fn new(seed: u64, number: u64) -> Scene {
        let mut random = Random::new(seed, number);
        let (before, after) = (random.below(4), random.below(4));
        let pages = pages(&mut random);
        let first = first(&mut random, before, pages, after);
        let setup = Setup {
            shift: random.index(16),
            len: (KIB4 * (before + pages + after)) as usize,
            origin: KIB4 * (first - before),
            pool: KIB4 * first,
            pages,
            junk: random.word(),
            released: if random.chance(1, 8) { (1 << 62) - random.below(6) } else { 0 },
        };
        let steps = match pages {
            0..=9 => 60 + random.below(100),
            10..=99 => 100 + random.below(300),
            _ => 300 + random.below(500),
        };
        let indices = [(); 4].map(|()| {
            let mut some = vec![0, 511];
            // More where there are more pages, so that the pool can run dry.
            some.extend((0..1 + random.below(3 + pages / 40)).map(|_| random.below(512)));
            some
        });
        // map, unmap, protect, told, look_up, and what is done to entries without being asked
        let mood =
            random.pick(&[[60, 12, 8, 4, 4, 6], [40, 30, 8, 10, 4, 6], [45, 35, 6, 4, 4, 4], [34, 34, 4, 20, 4, 4]]);
        Scene { random, setup, steps, indices, mood }
    }

    fn kind(&mut self) -> usize {
        let mut at = self.random.below(self.mood.iter().sum());
        for (kind, weight) in self.mood.iter().enumerate() {
            if at < *weight {
                return kind;
            }
            at -= weight;
        }
        unreachable!("below the sum")
    }

    /// The next step, over all of the window.
    pub fn next(&mut self, hints: &Hints) -> Step {
        let space = self.setup.space();
        // Here and there several things are wrong at once, which shows the order of the tests.
        let odd = self.random.chance(1, 8);
        let mut kind = self.kind();
        if hints.pages.is_empty() && self.random.chance(3, 4) {
            kind = 0;
        }
        let request = match kind {
            0 => self.map(space, hints, odd),
            1 => Request::Unmap { space, base: self.base_of_page(hints, odd) },
            2 => Request::Protect { space, base: self.base_of_page(hints, odd), rights: self.rights() },
            3 => Request::Told { space, ticket: self.ticket(hints) },
            4 => self.look_up(space, hints),
            _ if self.random.chance(1, 4) => return Step::Old { va: self.address(hints) },
            _ => return Step::Mark { va: self.address(hints), dirty: self.random.chance(1, 2) },
        };
        let request = if odd { self.misplaced(request) } else { request };
        let mut to = self.setup.len;
        if odd && self.random.chance(1, 8) {
            to -= self.random.pick(&[1, 8, 4096, 8192]);
        }
        Step::Ask { request, from: 0, to, sample: self.random.word() }
    }

    fn rights(&mut self) -> u64 {
        match self.random.below(32) {
            // A bit above the third means nothing, and is refused.
            0 => self.random.word(),
            // Writable and executable, which is refused too.
            1..=4 => self.random.pick(&[1, 3]),
            _ => self.random.pick(&[0, 2, 4, 5, 6, 7]),
        }
    }

    fn map(&mut self, space: Space, hints: &Hints, odd: bool) -> Request {
        let random = &mut self.random;
        let mut size = random.pick(&[KIB4, KIB4, KIB4, MIB2, MIB2, GIB1]);
        if odd && random.chance(1, 6) {
            size = random.pick(&[0, 1, 4095, 8192, MIB2 + KIB4, GIB1 / 2, 512 * GIB1, 1 << 63, u64::MAX, size | 1]);
        }
        let grid = if SIZES.contains(&size) { size } else { KIB4 };
        let mut base = self.base(hints, grid);
        let mut frame = self.frame(space, grid);
        let random = &mut self.random;
        if odd && random.chance(1, 4) {
            // Many of the hole: its ends, an address without its high bits or with one turned over.
            base = random.pick(&[
                LOWER,
                UPPER - grid,
                base ^ 1,
                base + grid / 2,
                base % (1 << 48),
                base ^ 1 << (47 + base % 17),
                base ^ 1 << 63,
                random_word(base),
                random_word(base) / grid * grid,
                LOWER - grid + 8,
            ]);
        }
        if odd && random.chance(1, 4) {
            frame = random.pick(&[
                PHYSICAL,
                PHYSICAL + grid,
                frame ^ 8,
                frame + grid / 2,
                frame | 1 << 60,
                random_word(frame),
            ]);
        }
        Request::Map { space, base, frame, size, rights: self.rights() }
    }

    /// An address for a page: of few that are often asked for, so that pages meet; and the first and last of both halves.
    fn base(&mut self, hints: &Hints, size: u64) -> u64 {
        let random = &mut self.random;
        match random.below(24) {
            0 => 0,
            1 => 0u64.wrapping_sub(size),
            8 => LOWER - size,
            9 => UPPER,
            2..=6 if !hints.pages.is_empty() => {
                let (base, other) = random.pick(&hints.pages);
                let next = if random.chance(1, 2) { base.wrapping_add(other) } else { base.wrapping_sub(size) };
                canonical(next) / size * size
            }
            7 => canonical(random.word()) / size * size,
            _ => {
                let va = self.indices.iter().fold(0, |va, some| va << 9 | some[random.index(some.len())]);
                canonical(va << 12) / size * size
            }
        }
    }

    /// A frame: anywhere, at both ends of physical memory, right beside the pool, and in it.
    fn frame(&mut self, space: Space, size: u64) -> u64 {
        let random = &mut self.random;
        let (pool, end) = (space.pool, space.end());
        let grid = |address: u64| address / size * size;
        match random.below(24) {
            0 => 0,
            1 => PHYSICAL - size,
            2 => grid(pool.saturating_sub(size)),
            3 => grid(pool.saturating_sub(1)),
            4 => grid((end + size - 1).min(PHYSICAL - size)),
            5 => grid(end.min(PHYSICAL - size)),
            6 => grid(pool + random.below(end - pool)),
            7 => grid(end - KIB4),
            8 => grid(pool),
            _ => grid(random.below(PHYSICAL)),
        }
    }

    fn address(&mut self, hints: &Hints) -> u64 {
        if hints.pages.is_empty() || self.random.chance(1, 8) {
            return self.base(hints, KIB4) + self.random.below(KIB4);
        }
        let (base, size) = self.random.pick(&hints.pages);
        base + self.random.below(size)
    }

    /// Mostly the base of a page.
    fn base_of_page(&mut self, hints: &Hints, odd: bool) -> u64 {
        if odd && self.random.chance(1, 3) {
            let near = self.address(hints);
            let base = near / KIB4 * KIB4;
            let turned = base ^ 1 << (47 + self.random.below(17));
            let edge = self.random.pick(&EDGES);
            return self.random.pick(&[near, base, edge, LOWER, base % (1 << 48), turned, base ^ 1 << 63]);
        }
        if hints.pages.is_empty() || self.random.chance(1, 10) {
            let size = self.random.pick(&SIZES);
            return self.base(hints, size);
        }
        let base = self.random.pick(&hints.pages).0;
        // Of the hole, and by its low bits a page's.
        if self.random.chance(1, 32) {
            return base ^ 1 << (47 + self.random.below(17));
        }
        base
    }

    fn ticket(&mut self, hints: &Hints) -> u64 {
        let random = &mut self.random;
        let (last, all) = (hints.tickets.last().copied().unwrap_or(0), hints.tickets.len());
        match random.below(16) {
            0 => random.below(4),
            1 => random.pick(&[u64::MAX, 1 << 62, (1 << 62) + 1, (1 << 62) - 1, random_word(last)]),
            2 => last.wrapping_add(1),
            3 => last.saturating_sub(1),
            4..=9 if all > 0 => hints.tickets[all - 1 - random.index(all.min(6))],
            _ => last,
        }
    }

    /// Mostly with the root that was made.
    fn look_up(&mut self, space: Space, hints: &Hints) -> Request {
        let mut va = self.address(hints);
        let random = &mut self.random;
        // CR3 has bits that are no address.
        let mut root = space.root | random.word() & 0xfff0_0000_0000_0fff;
        if random.chance(1, 8) {
            let turned = va ^ 1 << (47 + random.below(17));
            let edge = random.pick(&EDGES);
            va = random.pick(&[turned, edge, va % (1 << 48), random_word(va), canonical(random_word(va))]);
        }
        if random.chance(1, 8) {
            root = random.pick(&[space.end(), space.pool, space.origin.wrapping_sub(KIB4), random_word(root)]);
        }
        Request::LookUp { origin: space.origin, root, va }
    }

    /// The request with a space that makes no sense, or that is another's.
    fn misplaced(&mut self, mut request: Request) -> Request {
        if self.random.chance(1, 16) {
            return self.create();
        }
        let (len, random) = (self.setup.len as u64, &mut self.random);
        if random.chance(1, 2) {
            return request;
        }
        let (Request::Map { space, .. }
        | Request::Unmap { space, .. }
        | Request::Protect { space, .. }
        | Request::Told { space, .. }) = &mut request
        else {
            return request;
        };
        let fair = *space;
        for _ in 0..1 + random.below(2) {
            match random.below(7) {
                0 => {
                    space.pool = random.pick(&[fair.pool + 1, fair.pool + 2048, fair.pool ^ 8, random_word(fair.pool)])
                }
                1 => {
                    space.root = random.pick(&[fair.root + 1, fair.root + 2048, fair.root ^ 8, random_word(fair.root)])
                }
                2 => space.pages = random.pick(&[(1 << 32) + 1, 1 << 40, u64::MAX, random_word(fair.pages)]),
                3 => space.pages = random.below(3),
                4 => space.pages = random.pick(&[len / KIB4 + 1, 1 << 32, fair.pages + 4, fair.pages + len / KIB4]),
                5 => {
                    let below = fair.pool.wrapping_sub(len).wrapping_sub(KIB4);
                    match random.below(3) {
                        0 => {
                            space.origin = random.pick(&[fair.pool + 1, fair.pool + KIB4, below, fair.end(), u64::MAX])
                        }
                        1 => space.pool = random.pick(&[fair.origin.wrapping_sub(KIB4), fair.origin + len, PHYSICAL]),
                        _ => space.pool = random_word(fair.pool) / KIB4 * KIB4,
                    }
                }
                _ => {
                    let books = [fair.pool, fair.pool.wrapping_sub(KIB4), fair.pool.wrapping_add(KIB4 * fair.pages), 0];
                    space.root = random.pick(&books) / KIB4 * KIB4;
                }
            }
        }
        request
    }

    fn create(&mut self) -> Request {
        let Setup { mut origin, mut pool, mut pages, len, .. } = self.setup;
        let (fair, len, random) = (self.setup, len as u64, &mut self.random);
        for _ in 0..random.below(3) {
            match random.below(5) {
                0 => {
                    let below = fair.origin.wrapping_sub(KIB4);
                    origin = random.pick(&[fair.origin + 8, fair.origin ^ 2048, fair.pool + KIB4, below]);
                }
                1 => {
                    let below = fair.origin.wrapping_sub(KIB4);
                    pool = random.pick(&[fair.pool + 8, fair.pool ^ 2048, fair.origin + len, below]);
                }
                2 => pages = random.pick(&[(1 << 32) + 1, u64::MAX, random_word(fair.pages)]),
                3 => pages = random.below(3),
                _ => pages = random.pick(&[1 << 32, fair.pages + 4, len / KIB4 + 1]),
            }
        }
        Request::Create { origin, pool, pages }
    }
}

/// The address with these low 48 bits.
pub fn canonical(va: u64) -> u64 {
    let low = va % (1 << 48);
    if low < LOWER {
        low
    } else {
        low + (0xffff << 48)
    }
}

/// Another number that depends on this one, and could be any.
fn random_word(word: u64) -> u64 {
    Random::new(word, 2).word()
}
