//! No page becomes writable and executable: every rights by map, and from every rights to every other by protect; before what else that is
//! said, and after what; and pages of older tables that are both.

use tablepath::numbers::{self, Handle};
use tablepath::{Found, Page, Pages, Reason, Rights, Size, Space};

const ORIGIN: u64 = 0x10_0000;
const FRAME: u64 = 0x40_0000_0000;
/// Writable without no-execute, as bits; and all others.
const BOTH: [u64; 2] = [1, 3];
const ALLOWED: [u64; 6] = [0, 2, 4, 5, 6, 7];

fn made() -> (Box<Pages<16>>, Space) {
    let mut pool = Box::new(Pages::ZERO);
    let space = Space::create(&mut pool, ORIGIN, ORIGIN, 16).expect("there is room");
    (pool, space)
}

fn rights(bits: u64) -> Rights {
    Rights::from_bits(bits).expect("its bits mean something")
}

/// Bases of each size: the first of all, the first of the upper half, the last of all.
fn pages() -> impl Iterator<Item = (u64, Size)> {
    Size::ALL
        .into_iter()
        .flat_map(|size| [0, 0xffff_8000_0000_0000, 0u64.wrapping_sub(size.bytes())].map(|base| (base, size)))
}

#[test]
fn from_each_rights_to_each() {
    for (base, size) in pages() {
        for from in ALLOWED {
            let (mut pool, space) = made();
            space.map(&mut pool, base, FRAME, size, rights(from)).expect("it is allowed");
            for to in 0..8 {
                let (before, asked) = (pool.clone(), rights(to));
                let answer = space.protect(&mut pool, base, asked);
                if BOTH.contains(&to) {
                    assert_eq!(answer, Err(Reason::WriteExecute), "{size}, from {} to {asked}", rights(from));
                    assert!(pool == before);
                    continue;
                }
                assert_eq!(answer.map(|done| (done.frame, done.size)), Ok((FRAME, size)));
                let page = Page { base, size, frame: FRAME, rights: asked };
                assert_eq!(space.look_up(&pool, base + (size.bytes() - 1)), Found::Page(page));
                space.protect(&mut pool, base, rights(from)).expect("it is allowed");
                assert!(pool == before);
            }
        }
    }
}

#[test]
fn map_with_every_rights() {
    for (base, size) in pages() {
        for bits in (0..8).chain([8, 9, 11, 1 << 63, (1 << 63) + 1, u64::MAX]) {
            let (mut pool, space) = made();
            let before = pool.clone();
            let reason = numbers::map(&mut pool, space.handle(), base, FRAME, size.bytes(), bits).reason;
            let should = match bits {
                _ if BOTH.contains(&bits) => Err(Reason::WriteExecute),
                0..8 => Ok(()),
                _ => Err(Reason::Rights),
            };
            assert_eq!(Reason::of(reason), should, "{size} at {base:#x} with {bits:#x}");
            if let Ok(()) = should {
                let page = Page { base, size, frame: FRAME, rights: rights(bits) };
                assert_eq!(space.look_up(&pool, base), Found::Page(page));
            } else {
                assert!(pool == before);
            }
        }
    }
}

/// A page is mapped at 0, and two pages are free, where a page that is alone needs three.
fn full() -> (Box<Pages<16>>, Space) {
    let (mut pool, space) = made();
    for n in 0..4 {
        space.map(&mut pool, n << 39, FRAME, Size::Kib4, Rights::NONE).expect("there is room");
    }
    assert_eq!(space.state(&pool).map(|state| state.free), Ok(2));
    (pool, space)
}

/// Handles that are refused, each for another reason.
fn wrong(handle: Handle) -> [(Handle, Reason); 8] {
    [
        (Handle { pool: handle.pool + 8, ..handle }, Reason::PoolUnaligned),
        (Handle { root: handle.root + 8, ..handle }, Reason::RootUnaligned),
        (Handle { pages: u64::MAX, ..handle }, Reason::PoolLarge),
        (Handle { pages: 2, ..handle }, Reason::PoolSmall),
        (Handle { pages: 17, ..handle }, Reason::PoolOutside),
        (Handle { pages: 15, ..handle }, Reason::OtherBook),
        (Handle { root: handle.root + 4096, ..handle }, Reason::BadRoot),
        (Handle { pool: handle.pool + 4096, pages: 15, ..handle }, Reason::NoBook),
    ]
}

/// Each page is refused for the first reason with rights that are allowed, and for the second with rights that are both.
#[test]
fn the_order_in_map() {
    let (mut pool, space) = full();
    let before = pool.clone();
    let handle = space.handle();
    let both = Reason::WriteExecute;
    let mut cases = vec![
        (handle, 1, 1, 8192, Reason::Size, Reason::Size),
        (handle, 4096, 4096, 0x20_0000, Reason::BaseUnaligned, Reason::BaseUnaligned),
        (handle, 1 << 47, 4096, 0x20_0000, Reason::FrameUnaligned, Reason::FrameUnaligned),
        (handle, 1 << 47, 1 << 52, 4096, Reason::BaseRange, Reason::BaseRange),
        (handle, 0, 1 << 52, 4096, Reason::FrameRange, Reason::FrameRange),
        (handle, 0, ORIGIN, 4096, Reason::FrameInPool, both),
        (handle, 0, FRAME, 4096, Reason::Overlap, both),
        (handle, 7 << 39, FRAME, 4096, Reason::NoRoom, both),
    ];
    cases.extend(wrong(handle).map(|(handle, reason)| (handle, 0x1000, FRAME, 4096, reason, both)));
    for (handle, base, frame, size, allowed, refused) in cases {
        for bits in ALLOWED {
            assert_eq!(Reason::of(numbers::map(&mut pool, handle, base, frame, size, bits).reason), Err(allowed));
        }
        for bits in BOTH {
            let reason = numbers::map(&mut pool, handle, base, frame, size, bits).reason;
            assert_eq!(Reason::of(reason), Err(refused), "{allowed:?}");
            let reason = numbers::map(&mut pool, handle, base, frame, size, bits + 8).reason;
            assert_eq!(Reason::of(reason), Err(Reason::Rights), "{allowed:?}");
        }
    }
    assert!(pool == before);
}

#[test]
fn the_order_in_protect() {
    let (mut pool, space) = full();
    let before = pool.clone();
    let handle = space.handle();
    let mut cases = vec![(handle, 0x1000, Reason::NothingStarts), (handle, 1 << 47, Reason::BaseRange)];
    cases.extend(wrong(handle).map(|(handle, reason)| (handle, 0, reason)));
    for (handle, base, allowed) in cases {
        for bits in ALLOWED {
            assert_eq!(Reason::of(numbers::protect(&mut pool, handle, base, bits).reason), Err(allowed));
        }
        for bits in BOTH {
            let reason = numbers::protect(&mut pool, handle, base, bits).reason;
            assert_eq!(Reason::of(reason), Err(Reason::WriteExecute), "{allowed:?}");
            let reason = numbers::protect(&mut pool, handle, base, bits + 8).reason;
            assert_eq!(Reason::of(reason), Err(Reason::Rights), "{allowed:?}");
        }
    }
    assert!(pool == before);
}

/// The one entry that is this word.
fn entry_of(pool: &mut [u8], word: u64) -> &mut [u8] {
    let mut words = pool.chunks_exact_mut(8).filter(|bytes| **bytes == word.to_le_bytes());
    let entry = words.next().expect("it is there");
    assert!(words.next().is_none(), "it is there once");
    entry
}

/// An entry that was made by hand, or before such pages were refused.
#[test]
fn a_page_that_is_both_already() {
    for (base, size) in pages() {
        for bits in BOTH {
            let (mut pool, space) = made();
            space.map(&mut pool, base, FRAME, size, rights(bits - 1)).expect("it is allowed");
            let word = FRAME | 1 | (bits - 1) << 1 | if size == Size::Kib4 { 0 } else { 1 << 7 };
            entry_of(&mut pool, word)[0] |= 2;
            let page = Page { base, size, frame: FRAME, rights: rights(bits) };
            let before = pool.clone();
            for refused in BOTH {
                assert_eq!(space.protect(&mut pool, base, rights(refused)), Err(Reason::WriteExecute), "{page:?}");
            }
            assert!(pool == before);
            assert_eq!(space.look_up(&pool, base + (size.bytes() - 1)), Found::Page(page));
            for to in ALLOWED {
                let mut pool = before.clone();
                let done = space.protect(&mut pool, base, rights(to)).expect("it is allowed");
                assert_eq!((done.frame, done.size), (FRAME, size));
                assert_eq!(space.look_up(&pool, base), Found::Page(Page { rights: rights(to), ..page }));
            }
            let unmapped = space.unmap(&mut pool, base).expect("it is mapped");
            assert_eq!((unmapped.frame, unmapped.size), (FRAME, size));
            assert_eq!(space.look_up(&pool, base), Found::Nothing);
            assert_eq!(space.told(&mut pool, unmapped.ticket), Ok(unmapped.aside));
        }
    }
}
