//! What the writer asks: pages of every size at few addresses, so that tables come and go and are used again, at other
//! places and at other levels; and which addresses are watched.

use crate::frames::Frames;
use crate::memory::Shared;
use operations::layout::{ASIDE, FREE, HEAD, HEADER};
use operations::ledger::{Ledger, GIB1, KIB4, MIB2, PHYSICAL, SIZES};
use operations::random::Random;
use operations::{LookedUp, Operations, Request, Space};
use std::collections::BTreeSet;

/// The indices of the addresses that are used, the same ones at each level: what a walk reads in a table that was used again
/// is an entry that may well be there.
const INDICES: [u64; 2] = [5, 511];
/// Where the root's entries begin that are used: the first of all, and the last, so that the last page of all is among the pages.
const TOPS: [u64; 2] = [0, 0xffff_ff80_0000_0000];
const ORIGIN: u64 = 0x4000_0000;

/// What the walks know.
pub struct Sight {
    pub root: u64,
    pub watched: Vec<u64>,
    /// The base and size of every page that may be mapped; and for each watched address a bit for each of them that it lies in.
    pub pages: Vec<(u64, u64)>,
    lies_in: Vec<u64>,
}

impl Sight {
    fn new(root: u64, watched: Vec<u64>) -> Sight {
        let mut pages: Vec<(u64, u64)> = vec![];
        for size in SIZES {
            let begins: BTreeSet<u64> = bases().map(|base| base / size * size).collect();
            pages.extend(begins.into_iter().map(|base| (base, size)));
        }
        assert!(pages.len() <= 64, "a bit for each page");
        let bits = |va: &u64| {
            let within = |page: &(u64, u64)| u64::from(va.wrapping_sub(page.0) < page.1);
            pages.iter().enumerate().map(|(bit, page)| within(page) << bit).sum()
        };
        let lies_in = watched.iter().map(bits).collect();
        Sight { root, watched, pages, lies_in }
    }

    /// The watched addresses in these pages.
    pub fn told(&self, pages: u64) -> impl Iterator<Item = usize> + '_ {
        (0..self.watched.len()).filter(move |which| self.lies_in[*which] & pages != 0)
    }
}

pub struct Scene {
    pub random: Random,
    pub ledger: Ledger,
}

fn bases() -> impl Iterator<Item = u64> {
    let each = |size: u64| INDICES.map(move |index| index * size);
    TOPS.into_iter().flat_map(move |top| {
        each(GIB1).into_iter().flat_map(move |high| {
            each(MIB2)
                .into_iter()
                .flat_map(move |middle| each(KIB4).into_iter().map(move |low| top + high + middle + low))
        })
    })
}

pub fn junk(random: &mut Random) -> u64 {
    // Present, and mostly the name of a table.
    random.word() | 1
}

impl Scene {
    /// A pool in a window with a page before and after it, all of it junk; what is watched; and the words of the window.
    pub fn new(of: &dyn Operations, seed: u64) -> (Scene, Sight, Vec<u64>) {
        let mut random = Random::new(seed, 0);
        let pages = 6 + random.below(14);
        let mut words: Vec<u64> = (0..512 * (pages + 2)).map(|_| junk(&mut random)).collect();
        let shared = Shared::of(&mut words, ORIGIN);
        // SAFETY: nobody else reads them yet.
        let made = of.create(unsafe { shared.lent() }, ORIGIN, ORIGIN + KIB4, pages);
        let ledger = Ledger::new(shared.len, ORIGIN, ORIGIN + KIB4, pages, 0);
        assert_eq!((made.reason, made.root), (0, ledger.space.root), "the pool is made");
        let mut watched: Vec<u64> = bases().map(|base| base + random.below(KIB4)).collect();
        // Beside them: what only a large page covers.
        watched.extend([GIB1 * 5 + 7 * MIB2, GIB1 * 5 + MIB2 * 5 + 9 * KIB4, TOPS[1] + GIB1 * 511, 0]);
        let sight = Sight::new(ledger.space.root, watched);
        (Scene { random, ledger }, sight, words)
    }

    pub fn space(&self) -> Space {
        self.ledger.space
    }

    pub fn means(&self, watched: &[u64]) -> Vec<LookedUp> {
        watched.iter().map(|va| self.ledger.means(*va)).collect()
    }

    /// The ticket of this moment.
    pub fn ticket(&self) -> u64 {
        self.ledger.released + self.ledger.aside
    }

    /// Few pages are free.
    pub fn is_dry(&self) -> bool {
        self.ledger.free < 3
    }

    /// A frame above the pool: mostly another each time; now and then one that is mapped already, or one that was and is gone.
    fn frame(&mut self, size: u64, gone: &Frames) -> u64 {
        let random = &mut self.random;
        let fresh = (GIB1 * 16 + random.below(PHYSICAL - 32 * GIB1)) / size * size;
        match random.below(8) {
            0 => self.ledger.mappings.iter().find(|page| page.size == size).map_or(fresh, |page| page.frame),
            1 => gone.again(size).unwrap_or(fresh),
            _ => fresh,
        }
    }

    pub fn next(&mut self, gone: &Frames) -> Request {
        let (space, dry) = (self.space(), self.is_dry());
        let random = &mut self.random;
        let all: Vec<u64> = bases().collect();
        let pages = &self.ledger.mappings;
        let page = |random: &mut Random| match pages.len() {
            0 => random.pick(&all),
            _ if random.chance(1, 32) => random.pick(&all),
            _ => random.pick(pages).base,
        };
        match random.below(16) {
            0..=6 => {
                let size = random.pick(&[SIZES[0], SIZES[0], SIZES[0], SIZES[0], SIZES[1], SIZES[1], SIZES[2]]);
                let base = random.pick(&all) / size * size;
                let rights = random.below(8);
                Request::Map { space, base, frame: self.frame(size, gone), size, rights }
            }
            // While the pool is dry some pages stay, or nothing would be left to be seen.
            7..=12 if !dry || pages.len() > 3 => Request::Unmap { space, base: page(random) },
            _ => Request::Protect { space, base: page(random), rights: random.below(8) },
        }
    }

    /// Word k of the book.
    fn book(&self, memory: Shared, k: u64) -> u64 {
        memory.read(self.space().pool + 8 * k).expect("the book is in the window")
    }

    /// The physical addresses of the pages at these positions of the ring.
    fn listed(&self, memory: Shared, from: u64, count: u64) -> Vec<u64> {
        let head = self.book(memory, HEAD);
        (from..from + count).map(|at| 4096 * self.book(memory, HEADER + (head + at) % self.space().pages)).collect()
    }

    pub fn aside(&self, memory: Shared) -> Vec<u64> {
        self.listed(memory, self.book(memory, FREE), self.book(memory, ASIDE))
    }

    /// The last pages that a report made free are anyone's: they are filled with junk.
    pub fn spoil(&mut self, memory: Shared, released: u64) {
        for page in self.listed(memory, self.book(memory, FREE) - released, released) {
            for place in (0..4096).step_by(8) {
                memory.write(page + place, junk(&mut self.random));
            }
        }
    }
}
