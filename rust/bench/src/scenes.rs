//! What is raced: windows with tables in them, and parts that leave each window as they found it, so that all three work on
//! the same bytes. What a row needs beside itself (to map again what it unmapped) is a part with no row.

use operations::baselines::Checked;
use operations::layout::{ASIDE, FREE, TICKETS};
use operations::{Operations, Space};

pub const FRAME: u64 = 256 << 30;
/// Writable and the user's, and not executable.
pub const RIGHTS: u64 = 7;
const ORIGIN: u64 = 1 << 40;
const PAGE: u64 = 4096;
const SIZES: [(u64, &str); 3] = [(PAGE, "4 KiB"), (PAGE << 9, "2 MiB"), (PAGE << 18, "1 GiB")];
const ENTRIES: u64 = 512;
/// Full tables, and the distance of the entries in them that are asked for.
const BUSY: u64 = 8;
const STRIDE: u64 = 8;
/// Tables with one or two entries.
const SPARSE: u64 = 64;
/// Pools side by side, each of which is reported to.
const POOLS: u64 = 64;

pub enum Work {
    LookUp,
    Map(u64),
    Unmap,
    Protect,
    UnmapMap,
    /// A table is made for a page, becomes empty, and is reported.
    TableTurn,
    /// All that is set aside is reported.
    Told,
    /// A report in each of these pools, which releases so many pages.
    Release(Vec<Space>, u64),
}

pub struct Part {
    pub row: String,
    pub work: Work,
    pub at: Vec<u64>,
    pub repeats: u64,
    /// Is each of these refused, or finds nothing?
    pub refused: bool,
}

pub struct Scene {
    pub name: String,
    pub space: Space,
    /// More pools in the window, empty.
    pub others: Vec<Space>,
    pub bytes: u64,
    /// What is mapped at first: addresses and sizes.
    pub mapped: Vec<(u64, u64)>,
    /// Where not 0: so many of the pool's pages are left free, so that caches hold them.
    pub left: u64,
    pub parts: Vec<Part>,
}

fn part(row: impl Into<String>, work: Work, at: &[u64]) -> Part {
    Part { row: row.into(), work, at: at.to_vec(), repeats: 1, refused: false }
}

impl Part {
    fn repeated(self, repeats: u64) -> Part {
        Part { repeats, ..self }
    }

    fn refused(self) -> Part {
        Part { refused: true, ..self }
    }

    pub fn operations(&self) -> f64 {
        let once = match &self.work {
            Work::Release(spaces, _) => spaces.len(),
            Work::Told => 1,
            _ => self.at.len(),
        };
        (once as u64 * self.repeats) as f64
    }

    /// Before each time, and not timed: pools to be reported to have something set aside.
    pub fn prepare(&self, mem: &mut [u8]) {
        if let Work::Release(spaces, pages) = &self.work {
            for space in spaces {
                let free = space.pages - space.book() - 1 - pages;
                for (word, to) in [(FREE, free), (ASIDE, *pages), (TICKETS, 0)] {
                    put_book(mem, *space, word, to);
                }
            }
        }
    }
}

fn book_word(space: Space, word: u64) -> usize {
    (space.pool - space.origin + 8 * word) as usize
}

fn put_book(mem: &mut [u8], space: Space, word: u64, to: u64) {
    let at = book_word(space, word);
    mem[at..at + 8].copy_from_slice(&to.to_le_bytes());
}

fn book(mem: &[u8], space: Space, word: u64) -> u64 {
    let at = book_word(space, word);
    u64::from_le_bytes(mem[at..at + 8].try_into().expect("eight bytes"))
}

/// The ticket of this moment.
pub fn ticket(mem: &[u8], space: &Space) -> u64 {
    book(mem, *space, TICKETS) + book(mem, *space, ASIDE)
}

impl Scene {
    fn new(name: impl Into<String>, pages: u64, mapped: Vec<(u64, u64)>, parts: Vec<Part>) -> Scene {
        let space = operations::space::made(ORIGIN, ORIGIN, pages);
        Scene { name: name.into(), space, others: vec![], bytes: pages * PAGE, mapped, left: 0, parts }
    }

    /// The window, with the pool made and all that is to be mapped in it.
    pub fn made(&self) -> Vec<u8> {
        let mut mem = vec![0; self.bytes as usize];
        for space in [&[self.space], &self.others[..]].concat() {
            let created = Checked.create(&mut mem, space.origin, space.pool, space.pages);
            assert_eq!((created.reason, created.root), (0, space.root), "{}", self.name);
        }
        for (base, size) in &self.mapped {
            let mapped = Checked.map(&mut mem, self.space, *base, FRAME, *size, RIGHTS);
            assert_eq!(mapped.reason, 0, "{}: {base:#x}", self.name);
        }
        if self.left > 0 {
            put_book(&mut mem, self.space, FREE, self.left);
        }
        mem
    }
}

/// Each table's entry `index`, of pages of this size; the first `tables` tables.
fn entries(size: u64, tables: u64, index: u64) -> Vec<u64> {
    (0..tables).map(|table| (table * ENTRIES + index) * size).collect()
}

fn sized(at: &[u64], size: u64) -> Vec<(u64, u64)> {
    at.iter().map(|base| (*base, size)).collect()
}

/// Full tables: look-up, protect, unmap and map where nothing has to be made and nothing becomes empty.
fn busy(size: u64, name: &str) -> Scene {
    let all: Vec<u64> = (0..BUSY * ENTRIES).map(|page| page * size).collect();
    let some: Vec<u64> = all.iter().copied().filter(|base| base / size % STRIDE == STRIDE / 2).collect();
    let parts = vec![
        part(format!("look-up {name}"), Work::LookUp, &some).repeated(4),
        part(format!("map {name}, refused: overlap"), Work::Map(size), &some).repeated(4).refused(),
        part(format!("protect {name}"), Work::Protect, &some).repeated(4),
        part(format!("unmap {name}, full table"), Work::Unmap, &some),
        part(format!("map {name}, table present"), Work::Map(size), &some),
    ];
    Scene::new(format!("full tables of {name}"), 40, sized(&all, size), parts)
}

/// What finds nothing, and what is refused at once.
fn nothing() -> Scene {
    let at = entries(PAGE, BUSY, 0);
    let holes = entries(PAGE, BUSY, 1);
    let none: Vec<u64> = at.iter().map(|va| va | 1 << 47).collect();
    let parts = vec![
        part("look-up of no address: the call alone", Work::LookUp, &none).repeated(64).refused(),
        part("look-up, nothing there", Work::LookUp, &holes).repeated(64).refused(),
        part("unmap, refused: nothing starts", Work::Unmap, &holes).repeated(64).refused(),
    ];
    Scene::new("nothing", 40, sized(&at, PAGE), parts)
}

/// Tables of two entries: how far unmap has to look for the one that stays.
fn neighbour(index: u64) -> Scene {
    let (stays, goes) = (entries(PAGE, SPARSE, index), entries(PAGE, SPARSE, 256));
    let parts = vec![
        part(format!("unmap 4 KiB, one neighbour, at index {index}"), Work::Unmap, &goes),
        part("", Work::Map(PAGE), &goes),
    ];
    Scene::new("a neighbour", SPARSE + 20, [sized(&stays, PAGE), sized(&goes, PAGE)].concat(), parts)
}

/// Pages that are alone in so many tables each.
fn alone(level: usize, tables: u64) -> Scene {
    let (size, name) = SIZES[level];
    // The table that holds the topmost of these stays, by a page that stays.
    let (apart, count) = (size << (9 * tables), if tables == 1 { SPARSE } else { SPARSE / 4 });
    let at: Vec<u64> = (0..count).map(|number| number * apart + 256 * size).collect();
    let (missing, empty) =
        if tables == 1 { ("table missing", "table becomes empty") } else { ("tables missing", "tables become empty") };
    let parts = vec![
        part(format!("unmap {name}, {tables} {empty}"), Work::Unmap, &at),
        part("", Work::Told, &[]),
        part(format!("map {name}, {tables} {missing}"), Work::Map(size), &at),
    ];
    let mapped = [sized(&at, size), vec![(count * apart, size)]].concat();
    Scene::new(format!("alone in {tables}"), (count + 1) * tables + 20, mapped, parts)
}

/// Reports that release so many pages.
fn release(pages: u64) -> Scene {
    let each = pages + 8;
    let spaces: Vec<Space> =
        (0..POOLS).map(|pool| operations::space::made(ORIGIN, ORIGIN + pool * each * PAGE, each)).collect();
    let reports = Work::Release(spaces.clone(), pages);
    let mut scene = Scene::new("reports", each, vec![], vec![part(format!("told, releases {pages}"), reports, &[])]);
    scene.bytes = POOLS * each * PAGE;
    scene.others = spaces[1..].to_vec();
    scene
}

/// So many pages mapped: look-up, protect, and unmap and map again, of ten of them.
fn mapped(pages: u64) -> Scene {
    let all: Vec<u64> = (0..pages).map(|page| page * PAGE).collect();
    let ten: Vec<u64> = (0..10).map(|number| all[(number * pages / 10) as usize]).collect();
    let named = |what: &str| format!("{what}, {pages} pages mapped");
    let parts = vec![
        part(named("look-up"), Work::LookUp, &ten).repeated(64),
        part(named("protect"), Work::Protect, &ten).repeated(64),
        part(named("unmap, and map again"), Work::UnmapMap, &ten).repeated(16),
    ];
    Scene::new("pages mapped", pages / ENTRIES + 40, sized(&all, PAGE), parts)
}

/// A pool of so many pages, of which sixteen are free: a table is made, becomes empty, and is reported.
fn pool(pages: u64) -> Scene {
    let at = [256 * PAGE];
    let parts =
        vec![part(format!("map, unmap, told of one table, pool of {pages}"), Work::TableTurn, &at).repeated(64)];
    let mut scene = Scene::new("a pool", pages, vec![(ENTRIES * PAGE, PAGE)], parts);
    scene.left = 16;
    scene
}

pub fn all() -> Vec<Scene> {
    let mut scenes = vec![nothing()];
    scenes.extend(SIZES.map(|(size, name)| busy(size, name)));
    scenes.extend([0, 255, 511].map(neighbour));
    scenes.extend([(0, 1), (0, 3), (1, 1), (1, 2), (2, 1)].map(|(level, tables)| alone(level, tables)));
    scenes.extend([1, 10, 100, 1000].map(release));
    scenes.extend([10, 1_000, 100_000, 1_000_000].map(mapped));
    scenes.extend([100, 1_000, 10_000, 100_000].map(pool));
    scenes
}
