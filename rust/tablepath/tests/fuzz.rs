//! A million calls with wrong handles, between calls with the right one: every wrong one is refused, no byte changes by it, nothing outside the
//! pool is ever written, no page of the pool is ever mapped, and no page is ever writable and executable. `TABLEPATH_SEED` repeats a run.

use std::env;
use std::time::{SystemTime, UNIX_EPOCH};
use tablepath::numbers::{self, Handle};
use tablepath::{entry, Entry, Pages, Rights, Space};

const ORIGIN: u64 = 0x40_0000;
const WINDOW: usize = 40;
const WRONG: u64 = 1_000_000;
const CALLS: u64 = 20_000; // on one pool
const SLACK: u8 = 0xa5;

struct Random(u64);

impl Random {
    fn word(&mut self) -> u64 {
        // splitmix64
        self.0 = self.0.wrapping_add(0x9e37_79b9_7f4a_7c15);
        let mut word = self.0;
        word = (word ^ word >> 30).wrapping_mul(0xbf58_476d_1ce4_e5b9);
        word = (word ^ word >> 27).wrapping_mul(0x94d0_49bb_1331_11eb);
        word ^ word >> 31
    }

    fn below(&mut self, end: u64) -> u64 {
        self.word() % end
    }
}

/// Pools of different sizes at different places of one window.
struct Pool {
    mem: Box<Pages<WINDOW>>,
    handle: Handle,
}

impl Pool {
    fn new(random: &mut Random) -> Pool {
        let mut mem = Box::new(Pages::<WINDOW>::ZERO);
        mem.fill(SLACK);
        let pages = 3 + random.below(WINDOW as u64 - 5);
        let pool = ORIGIN + 4096 * (1 + random.below(WINDOW as u64 - 1 - pages));
        let handle = Space::create(&mut mem, ORIGIN, pool, pages).expect("there is room").handle();
        Pool { mem, handle }
    }

    fn page(&self, random: &mut Random) -> u64 {
        self.handle.pool + 4096 * random.below(self.handle.pages)
    }

    /// One number or more are not what they were.
    fn wrong(&self, random: &mut Random) -> Handle {
        let mut wrong = self.handle;
        while wrong == self.handle {
            match random.below(8) {
                0 | 1 => wrong.root = self.page(random),
                2 => wrong.pages = random.below(2 * WINDOW as u64),
                3 => wrong.pool = ORIGIN + 4096 * random.below(WINDOW as u64),
                4 => {
                    let by = (4096 * random.below(4)).wrapping_mul((random.below(2) * 2).wrapping_sub(1));
                    let Handle { origin, pool, root, .. } = wrong;
                    let moved = [origin, pool, root].map(|number| number.wrapping_add(by));
                    (wrong.origin, wrong.pool, wrong.root) = (moved[0], moved[1], moved[2]);
                }
                5 => wrong.origin ^= 1 << random.below(64),
                6 => wrong.root = [0, random.word(), wrong.root ^ 1 << random.below(64)][random.below(3) as usize],
                _ => wrong.pages = random.word() >> random.below(64),
            }
        }
        wrong
    }

    /// The reason of a call with this handle, whatever is asked.
    fn call(&mut self, random: &mut Random, handle: Handle) -> u64 {
        let size = [4096, 0x20_0000, 0x4000_0000][random.below(3) as usize];
        let part = |random: &mut Random| [0, 1, 5, 511][random.below(4) as usize];
        let base = (part(random) << 39 | part(random) << 30 | part(random) << 21 | part(random) << 12) & !(size - 1);
        // In its half; or in the hole between them, as the upper half is without the bits above.
        let base = if random.below(16) > 0 && base >> 47 == 1 { base | 0xffff << 48 } else { base };
        let frame = match random.below(3) {
            0 => self.page(random),
            _ => 0x1_0000_0000 + size * random.below(4),
        };
        let rights = random.below(9);
        match random.below(8) {
            0..=3 => numbers::map(&mut self.mem, handle, base, frame, size, rights).reason,
            4 | 5 => numbers::unmap(&mut self.mem, handle, base).reason,
            6 => numbers::protect(&mut self.mem, handle, base, rights).reason,
            _ if random.below(2) == 0 => numbers::state(&self.mem, handle).reason,
            _ => numbers::told(&mut self.mem, handle, random.below(64)).reason,
        }
    }

    /// Whether some entry below this table says such a page, by frame, size and rights.
    fn has(&self, table: u64, level: u64, such: &dyn Fn(u64, u64, Rights) -> bool) -> bool {
        (0..512).any(|index| match entry(&self.mem, ORIGIN, table, level, index) {
            Entry::Page { frame, rights, .. } => such(frame, 4096 << (9 * level), rights),
            Entry::Table { address, .. } => self.has(address, level - 1, such),
            _ => false,
        })
    }

    fn maps_itself(&self) -> bool {
        let (start, end) = (self.handle.pool, self.handle.pool + 4096 * self.handle.pages);
        self.has(self.handle.root, 3, &|frame, size, _| frame < end && start < frame + size)
    }

    fn is_writable_and_executable_somewhere(&self) -> bool {
        let both = |rights: Rights| rights.contains(Rights::WRITABLE) && !rights.contains(Rights::NO_EXECUTE);
        self.has(self.handle.root, 3, &|_, _, rights| both(rights))
    }

    fn slack_is_kept(&self) -> bool {
        let start = (self.handle.pool - ORIGIN) as usize;
        let end = start + 4096 * self.handle.pages as usize;
        self.mem[..start].iter().chain(&self.mem[end..]).all(|byte| *byte == SLACK)
    }
}

#[test]
fn a_million_calls_with_wrong_handles() {
    let seed = env::var("TABLEPATH_SEED").ok().and_then(|seed| seed.parse().ok());
    let clock = || SystemTime::now().duration_since(UNIX_EPOCH).expect("it is later than 1970").as_nanos() as u64;
    let seed = seed.unwrap_or_else(clock);
    println!("seed {seed}");
    let mut random = Random(seed);
    let mut done = 0;
    while done < WRONG {
        let mut pool = Pool::new(&mut random);
        for _ in 0..CALLS / 100 {
            for _ in 0..100 {
                let handle = pool.handle;
                pool.call(&mut random, handle);
            }
            let before = pool.mem.clone();
            for _ in 0..100 {
                let wrong = pool.wrong(&mut random);
                let reason = pool.call(&mut random, wrong);
                assert_ne!(reason, 0, "seed {seed}: {wrong:x?} is taken, where {:x?} is right", pool.handle);
                done += 1;
            }
            assert!(pool.mem == before, "seed {seed}: bytes have changed, where {:x?} is right", pool.handle);
        }
        assert!(!pool.maps_itself(), "seed {seed}: a page of the pool is mapped in {:x?}", pool.handle);
        assert!(
            !pool.is_writable_and_executable_somewhere(),
            "seed {seed}: a page is writable and executable in {:x?}",
            pool.handle
        );
        assert!(pool.slack_is_kept(), "seed {seed}: a byte outside the pool of {:x?} has changed", pool.handle);
    }
}
