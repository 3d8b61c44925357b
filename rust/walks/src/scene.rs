//! Random tables: a memory with ways through it, a window on some of it, and then questions, most of them with damage.

use crate::case::Case;
use crate::cover::Cover;
use crate::lent::{first, part, PAGE};
use crate::random::Random;
use crate::words::{page_word, table_word, ADDRESS};
use model::Walk;

const MOST_PAGES: usize = 12;
/// Both sides of each edge of the two halves, and what might be taken for one.
pub const EDGES: [u64; 11] = [
    0,
    (1 << 46) - 1,
    1 << 46,
    (1 << 47) - 1,
    1 << 47,
    (1 << 48) - 1,
    1 << 48,
    1 << 63,
    0xffff_7fff_ffff_ffff,
    0xffff_8000_0000_0000,
    u64::MAX,
];

/// An address that a way was built for, and how many of its low bits are free within the page.
#[derive(Clone, Copy)]
struct Aim {
    va: u64,
    free: u32,
}

pub struct Scene {
    pub case: Case,
    /// The root's page, as a number in the memory.
    root: usize,
    aims: Vec<Aim>,
    written: Vec<usize>,
    full: bool,
}

/// The address with these low 48 bits.
fn canonical(va: u64) -> u64 {
    ((va << 16) as i64 >> 16) as u64
}

/// A word that was changed for one question, as it was.
pub type Undo = Option<(usize, u64)>;

impl Scene {
    pub fn empty() -> Scene {
        Scene { case: Case::new(vec![], 0, 0, 0), root: 0, aims: vec![], written: vec![], full: false }
    }

    /// How many questions: more where it took long to build.
    pub fn worth(&self) -> u64 {
        if self.full {
            200
        } else {
            24
        }
    }

    pub fn build(&mut self, random: &mut Random) {
        self.clear();
        // More than a few, so that a part that is lent has some.
        let pages = 1 + random.index(MOST_PAGES).max(random.index(MOST_PAGES));
        self.case.shift = random.index(16);
        self.case.room.resize(self.case.shift + PAGE * pages, 0);
        self.case.first = first(random, pages as u64);
        self.root = random.index(pages);
        match random.below(32) {
            0 => self.fill(random),
            // Tables that are named once each, as a kernel builds them.
            1..=19 => {
                let mut fresh: Vec<usize> = (0..pages).filter(|page| *page != self.root).collect();
                for _ in 0..1 + random.below(4) {
                    self.way(random, |random| {
                        if fresh.is_empty() {
                            None
                        } else {
                            Some(fresh.swap_remove(random.index(fresh.len())))
                        }
                    });
                }
            }
            // Any page is any table's: shared, at several levels, and its own.
            _ => {
                for _ in 0..1 + random.below(4) {
                    self.way(random, |random| Some(random.index(pages)));
                }
            }
        }
        (self.case.from, self.case.to) = part(random, PAGE * pages);
    }

    fn clear(&mut self) {
        if self.full {
            self.case.room.fill(0);
        }
        for at in self.written.drain(..) {
            self.case.put(at, 0);
        }
        self.aims.clear();
        self.full = false;
    }

    fn put(&mut self, at: usize, word: u64) {
        self.case.put(at, word);
        self.written.push(at);
    }

    fn pages(&self) -> usize {
        self.case.memory().len() / PAGE
    }

    /// The address bits of a page of the memory. Where they do not suffice, they name another.
    fn names(&self, page: usize) -> u64 {
        self.case.first.wrapping_add((PAGE * page) as u64) & ADDRESS
    }

    /// The place of the entry that an address goes through in a table, at this step of the way.
    fn entry(table: usize, va: u64, step: u32) -> usize {
        PAGE * table + 8 * (va >> (39 - 9 * step) & 511) as usize
    }

    /// A way from the root to a page of some size. It ends early where another has a page, or no table is to be had.
    fn way(&mut self, random: &mut Random, mut take: impl FnMut(&mut Random) -> Option<usize>) {
        let last = random.pick(&[3, 3, 2, 1]);
        let va = self.address(random);
        self.aims.push(Aim { va, free: 39 - 9 * last });
        let mut table = self.root;
        for step in 0..last {
            let at = Scene::entry(table, va, step);
            let old = self.case.word(at);
            if old == 0 {
                let Some(next) = take(random) else { return };
                let word = table_word(random, self.names(next));
                self.put(at, word);
                table = next;
            } else {
                table = ((old & ADDRESS).wrapping_sub(self.case.first) / PAGE as u64) as usize;
                if old & 128 != 0 || table >= self.pages() {
                    return;
                }
            }
        }
        let at = Scene::entry(table, va, last);
        if self.case.word(at) == 0 {
            let word = page_word(random, last);
            self.put(at, word);
        }
    }

    /// Every word of every page is an entry of some kind.
    fn fill(&mut self, random: &mut Random) {
        self.full = true;
        for at in self.case.words() {
            let word = match random.below(16) {
                0 => random.word() & !1,
                1 => random.word(),
                2 | 3 => page_word(random, 1),
                4 => page_word(random, 2),
                _ => {
                    let page = random.index(self.pages());
                    table_word(random, self.names(page))
                }
            };
            self.case.put(at, word);
        }
    }

    /// An address to build a way for: new, or one that parts from an earlier at some level.
    fn address(&self, random: &mut Random) -> u64 {
        let mut va = 0;
        for _ in 0..4 {
            let index = match random.below(8) {
                0 => 0,
                1 => 511,
                _ => random.below(512),
            };
            va = va << 9 | index;
        }
        let new = canonical(va << 12);
        if self.aims.is_empty() || random.chance(1, 3) {
            return new;
        }
        let aim = random.pick(&self.aims);
        let kept = random.pick(&[39, 30, 21]);
        aim.va >> kept << kept | new & ((1 << kept) - 1)
    }

    /// An address to ask about.
    fn asked(&self, random: &mut Random) -> u64 {
        let random_48 = canonical(random.word() >> 16);
        let Some(aim) = (!self.aims.is_empty()).then(|| random.pick(&self.aims)) else {
            return if random.chance(1, 16) { random.word() } else { random_48 };
        };
        let low = (1 << aim.free) - 1;
        let base = aim.va & !low;
        let inside = match random.below(8) {
            0 => base,
            1 => base | low,
            _ => base | random_48 & low,
        };
        match random.below(32) {
            0 => base.wrapping_sub(1),
            1 => base.wrapping_add(low + 1),
            2..=4 => canonical(inside ^ (1 + random.below(511)) << random.pick(&[39, 30, 21, 12])),
            5 => random_48,
            6 => inside ^ random.word() << 47,
            // the half's high bits are missing, or those of the other half are there
            7 => inside ^ 0xffff << 48,
            8 => random.pick(&EDGES),
            _ => inside,
        }
    }

    /// CR3 for this root, with bits set that are no address.
    fn cr3(&self, random: &mut Random) -> u64 {
        let mut cr3 = self.names(self.root);
        if random.chance(1, 2) {
            cr3 |= random.below(1 << 12);
        }
        if random.chance(1, 2) {
            cr3 |= random.word() & !((1 << 52) - 1);
        }
        cr3
    }

    /// The next question: an address, CR3, and often one thing changed on its way.
    pub fn ask(&mut self, random: &mut Random, cover: &mut Cover) -> Undo {
        self.case.va = self.asked(random);
        self.case.cr3 = self.cr3(random);
        let walk = self.case.walk();
        match random.below(16) {
            0..=5 => self.flip(random, &walk, cover),
            6 | 7 => self.replace(random, &walk),
            8 => {
                let bit = random.below(64);
                cover.flip_cr3(&walk, bit);
                self.case.cr3 ^= 1 << bit;
                None
            }
            9 => {
                let bit = random.below(64);
                cover.flip_va(&walk, bit);
                self.case.va ^= 1 << bit;
                None
            }
            10 if random.chance(1, 4) => {
                self.case.cr3 = self.odd_word(random);
                None
            }
            _ => None,
        }
    }

    pub fn undo(&mut self, undo: Undo) {
        if let Some((at, word)) = undo {
            self.case.put(at, word);
        }
    }

    fn change(&mut self, at: usize, word: u64) -> Undo {
        let old = self.case.word(at);
        self.case.put(at, word);
        Some((at, old))
    }

    /// The place of one of the entries that the walk read, and which of the four it is.
    fn on_the_way(&self, random: &mut Random, walk: &Walk) -> Option<(usize, usize)> {
        let count = walk.way.iter().flatten().count();
        if count == 0 {
            return None;
        }
        let step = random.index(count);
        let at = walk.way[step].expect("read").address.wrapping_sub(self.case.first) as usize;
        Some((step, at))
    }

    fn flip(&mut self, random: &mut Random, walk: &Walk, cover: &mut Cover) -> Undo {
        let (step, at) = self.on_the_way(random, walk)?;
        let bit = random.below(64);
        cover.flip(walk, step, bit);
        self.change(at, self.case.word(at) ^ 1 << bit)
    }

    fn replace(&mut self, random: &mut Random, walk: &Walk) -> Undo {
        let (_, at) = self.on_the_way(random, walk)?;
        let word = self.odd_word(random);
        self.change(at, word)
    }

    /// A word that says something odd: a table that is not in the window, or only in part; reserved bits; anything.
    fn odd_word(&self, random: &mut Random) -> u64 {
        let Case { first, from, to, .. } = self.case;
        let near = |place: usize| first.wrapping_add(place as u64);
        let table = match random.below(16) {
            0 => first.wrapping_sub(PAGE as u64),
            1 => near(self.case.memory().len()),
            2 | 3 => near(from),
            4 | 5 => near(to),
            6 => near(to).wrapping_sub(PAGE as u64),
            7 => near(from).wrapping_add(PAGE as u64),
            8 => random.pick(&[0, ADDRESS, 1 << 51, 1 << 12]),
            9 => random.word(),
            10 => return page_word(random, 1) | random.word() & random.word() & 0x3fff_e000,
            11 => return page_word(random, 2) | random.word() & random.word() & 0x001f_e000,
            12 => return random.word() | 1,
            13 => return random.word() & !1,
            14 => return random.pick(&[0, 1, 0x80, 0x81, u64::MAX, u64::MAX - 1, 1 << 63]),
            _ => return table_word(random, self.names(self.root)) | 0x80,
        };
        table_word(random, table & ADDRESS)
    }
}
