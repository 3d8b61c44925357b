//! Accidents with a handle: a wrong root, a wrong number of pages, another pool or origin. Each call that such a handle is given is refused, and
//! changes nothing; `open` makes no space of it.

use tablepath::numbers::{self, Handle};
use tablepath::{Found, Pages, Rights, Size, Space};

const ORIGIN: u64 = 0x10_0000;
const POOL: u64 = ORIGIN + 4096;
const PAGES: u64 = 64;
const WINDOW: usize = PAGES as usize + 2;
const BUFFERS: u64 = 12;
const FRAME: u64 = 0x800_0000;

fn base(n: u64) -> u64 {
    n << 39 | n << 30
}

/// A pool with a page before it and one behind it; some of its pages are tables, some are set aside, most are free.
fn made() -> (Box<Pages<WINDOW>>, Space) {
    let mut mem = Box::new(Pages::ZERO);
    let space = Space::create(&mut mem, ORIGIN, POOL, PAGES).unwrap();
    let rights = Rights::WRITABLE | Rights::USER | Rights::NO_EXECUTE;
    for n in 0..BUFFERS {
        space.map(&mut mem, base(n), FRAME + n * 0x20_0000, Size::Mib2, rights).unwrap();
    }
    assert_eq!(space.unmap(&mut mem, base(3)).unwrap().aside, 2);
    (mem, space)
}

/// Every call refuses it, whatever is asked.
fn assert_refused(mem: &mut Pages<WINDOW>, wrong: Handle) {
    let before = mem.clone();
    let Handle { origin, pool, pages, root } = wrong;
    assert!(Space::open(mem, origin, pool, pages, root).is_err(), "{wrong:x?} is opened");
    let mut reasons = vec![numbers::state(mem, wrong).reason, numbers::told(mem, wrong, 0).reason];
    for n in 0..BUFFERS {
        reasons.push(numbers::unmap(mem, wrong, base(n)).reason);
        reasons.push(numbers::protect(mem, wrong, base(n), 2).reason);
        reasons.push(numbers::map(mem, wrong, base(n) + 0x20_0000, FRAME, 0x20_0000, 5).reason);
        reasons.push(numbers::map(mem, wrong, n << 39 | 1 << 38, FRAME, 4096, 7).reason);
    }
    assert!(!reasons.contains(&0), "{wrong:x?} is taken: {reasons:?}");
    assert!(*mem == before, "{wrong:x?} changes bytes");
}

#[test]
fn another_page_of_the_pool_as_the_root() {
    let (mut mem, space) = made();
    for root in (0..PAGES).map(|page| POOL + 4096 * page).filter(|root| *root != space.root()) {
        assert_refused(&mut mem, Handle { root, ..space.handle() });
    }
}

#[test]
fn another_number_of_pages() {
    let (mut mem, space) = made();
    for pages in (0..=PAGES + 2).filter(|pages| *pages != PAGES) {
        assert_refused(&mut mem, Handle { pages, ..space.handle() });
    }
}

/// With five pages a table of the real pool seemed to lie outside it, and was mapped for user mode to write.
#[test]
fn a_page_of_the_pool_by_a_handle_of_five_pages() {
    let (mut mem, space) = made();
    let wrong = Handle { pages: 5, ..space.handle() };
    for page in 0..PAGES {
        assert_ne!(numbers::map(&mut mem, wrong, base(40), POOL + 4096 * page, 4096, 7).reason, 0);
        assert_eq!(space.look_up(&mem, base(40)), Found::Nothing);
    }
}

#[test]
fn another_pool() {
    let (mut mem, space) = made();
    for pool in (0..=PAGES).map(|page| ORIGIN + 4096 * page).filter(|pool| *pool != POOL) {
        assert_refused(&mut mem, Handle { pool, ..space.handle() });
        let pages = PAGES + 2 - (pool - ORIGIN) / 4096;
        assert_refused(&mut mem, Handle { pool, pages, ..space.handle() });
    }
}

/// The same bytes by other physical addresses.
#[test]
fn another_origin() {
    let (mut mem, space) = made();
    let Handle { origin, pool, pages, root } = space.handle();
    for by in [4096, 1 << 30] {
        assert_refused(&mut mem, Handle { origin: origin + by, pool: pool + by, pages, root: root + by });
        assert_refused(&mut mem, Handle { origin: origin + by, ..space.handle() });
    }
}
