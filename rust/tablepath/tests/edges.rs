//! The edges of the two halves: every operation and every size at them, and in the hole between.

use tablepath::numbers::{self, Handle, LookedUp};
use tablepath::{Found, Page, Pages, Reason, Rights, Size, Space};

const ORIGIN: u64 = 0x10_0000;
const FRAME: u64 = 0x40_0000_0000;

/// Both sides of each edge, and whether it is an address.
const EDGES: [(u64, bool); 8] = [
    (0, true),
    (0x0000_7fff_ffff_ffff, true),
    (0x0000_8000_0000_0000, false),
    (0x0000_ffff_ffff_ffff, false),
    (0x0001_0000_0000_0000, false),
    (0xffff_7fff_ffff_ffff, false),
    (0xffff_8000_0000_0000, true),
    (0xffff_ffff_ffff_ffff, true),
];

/// The first and the last page of each half, by its size: written out.
const PAGES: [(Size, [u64; 4]); 3] = [
    (Size::Kib4, [0, 0x7fff_ffff_f000, 0xffff_8000_0000_0000, 0xffff_ffff_ffff_f000]),
    (Size::Mib2, [0, 0x7fff_ffe0_0000, 0xffff_8000_0000_0000, 0xffff_ffff_ffe0_0000]),
    (Size::Gib1, [0, 0x7fff_c000_0000, 0xffff_8000_0000_0000, 0xffff_ffff_c000_0000]),
];

/// Bases of the hole, aligned to every size: its ends, the upper half without its high bits, and 2^48 and 2^63 more than an address.
const HOLE: [u64; 8] = [
    0x0000_8000_0000_0000,
    0x0000_ffff_c000_0000,
    0x0001_0000_0000_0000,
    0x0001_7fff_c000_0000,
    0x7fff_ffff_c000_0000,
    0x8000_0000_0000_0000,
    0xfffe_8000_0000_0000,
    0xffff_7fff_c000_0000,
];

fn made() -> (Box<Pages<16>>, Space) {
    let mut pool = Box::new(Pages::ZERO);
    let space = Space::create(&mut pool, ORIGIN, ORIGIN, 16).expect("there is room");
    (pool, space)
}

/// Look-up of every edge, where these bytes have nothing mapped.
fn assert_edges(pool: &[u8], space: Space, mapped: Option<Page>) {
    for (va, is_address) in EDGES {
        let should = match mapped {
            _ if !is_address => Found::NoAddress,
            Some(page) if va.wrapping_sub(page.base) < page.size.bytes() => Found::Page(page),
            _ => Found::Nothing,
        };
        assert_eq!(space.look_up(pool, va), should, "{va:#x}");
    }
}

#[test]
fn an_empty_space() {
    let (pool, space) = made();
    assert_edges(&pool, space, None);
    for (va, is_address) in EDGES {
        let Handle { origin, root, .. } = space.handle();
        let answer = LookedUp { kind: if is_address { 0 } else { 5 }, ..LookedUp::default() };
        assert_eq!(numbers::look_up(&pool, origin, root, va), answer, "{va:#x}");
    }
}

/// Whatever the bytes are: entries that are pages or name a table in the window or outside, and no bytes at all.
#[test]
fn no_address_by_any_bytes() {
    let window = |word: u64| word.to_le_bytes().repeat(512);
    for bytes in [window(0), window(0x1007), window(0x8007), window(0x87), window(u64::MAX), vec![]] {
        for va in HOLE.into_iter().chain(EDGES.map(|(va, _)| va)) {
            let none = HOLE.contains(&va) || EDGES.contains(&(va, false));
            assert_eq!(numbers::look_up(&bytes, 0x1000, 0x1000, va).kind == 5, none, "{va:#x}");
        }
    }
}

#[test]
fn first_and_last_pages_of_both_halves() {
    for (size, bases) in PAGES {
        for base in bases {
            let (mut pool, space) = made();
            let last = base + (size.bytes() - 1);
            let tables = 3 - Size::ALL.iter().position(|one| *one == size).expect("it is one of them") as u64;
            let mapped = space.map(&mut pool, base, FRAME, size, Rights::NO_EXECUTE).map(|mapped| mapped.tables);
            assert_eq!(mapped, Ok(tables), "{size} at {base:#x}");
            let page = Page { base, size, frame: FRAME, rights: Rights::NO_EXECUTE };
            for va in [base, base + size.bytes() / 2, last] {
                assert_eq!(space.look_up(&pool, va), Found::Page(page), "{va:#x}");
            }
            assert_edges(&pool, space, Some(page));
            assert_eq!(space.map(&mut pool, base, FRAME, size, Rights::NONE), Err(Reason::Overlap));
            assert_eq!(space.map(&mut pool, last & !0xfff, FRAME, Size::Kib4, Rights::NONE), Err(Reason::Overlap));

            assert_eq!(
                space.protect(&mut pool, base, Rights::USER).map(|done| (done.frame, done.size)),
                Ok((FRAME, size))
            );
            assert_edges(&pool, space, Some(Page { rights: Rights::USER, ..page }));
            if size != Size::Kib4 {
                assert_eq!(space.unmap(&mut pool, last & !0xfff), Err(Reason::NothingStarts));
            }
            let unmapped = space.unmap(&mut pool, base).expect("it is mapped");
            assert_eq!((unmapped.frame, unmapped.size, unmapped.aside), (FRAME, size, tables));
            assert_edges(&pool, space, None);
            assert_eq!(space.unmap(&mut pool, base), Err(Reason::NothingStarts));
            assert_eq!(space.protect(&mut pool, base, Rights::USER), Err(Reason::NothingStarts));
        }
    }
}

/// With a page at the same walk in each half, so that a base of the hole would find it.
#[test]
fn bases_in_the_hole() {
    for (size, bases) in PAGES {
        let (mut pool, space) = made();
        for base in bases {
            space.map(&mut pool, base, FRAME, size, Rights::NONE).expect("there is room");
        }
        let before = pool.clone();
        // the pages themselves without the high bits of their half, or with those of the other
        let turned = bases.into_iter().flat_map(|base| (47..64).map(move |bit| base ^ 1 << bit));
        for base in HOLE.into_iter().chain(turned) {
            for bytes in Size::ALL {
                if base % bytes.bytes() == 0 {
                    assert_eq!(
                        space.map(&mut pool, base, FRAME, bytes, Rights::NONE),
                        Err(Reason::BaseRange),
                        "{base:#x}"
                    );
                }
            }
            assert_eq!(space.unmap(&mut pool, base), Err(Reason::BaseRange), "{base:#x}");
            assert_eq!(space.unmap(&mut pool, base + 1), Err(Reason::BaseRange), "{base:#x} + 1");
            assert_eq!(space.protect(&mut pool, base, Rights::NONE), Err(Reason::BaseRange), "{base:#x}");
            assert_eq!(space.look_up(&pool, base), Found::NoAddress, "{base:#x}");
        }
        assert!(pool == before);
    }
}

/// The edges themselves as bases: the odd ones are no multiple of a size, which map says first; unmap and protect ask for an address first.
#[test]
fn edges_as_bases() {
    let (mut pool, space) = made();
    for (base, is_address) in EDGES {
        for size in Size::ALL {
            let reason = match (base % 4096, is_address) {
                (0, true) => continue,
                (0, false) => Reason::BaseRange,
                _ => Reason::BaseUnaligned,
            };
            assert_eq!(space.map(&mut pool, base, FRAME, size, Rights::NONE), Err(reason), "{size} at {base:#x}");
        }
        let reason = if is_address { Reason::NothingStarts } else { Reason::BaseRange };
        assert_eq!(space.unmap(&mut pool, base), Err(reason), "{base:#x}");
        assert_eq!(space.protect(&mut pool, base, Rights::NONE), Err(reason), "{base:#x}");
    }
    let odd = [(0, 0x1000, Size::Mib2, Reason::FrameUnaligned), (0x1000, 0, Size::Mib2, Reason::BaseUnaligned)];
    for (more, frame, size, reason) in odd {
        assert_eq!(space.map(&mut pool, (1 << 47) + more, frame, size, Rights::NONE), Err(reason), "before the range");
    }
    assert_eq!(
        space.map(&mut pool, 1 << 47, 1 << 52, Size::Kib4, Rights::NONE),
        Err(Reason::BaseRange),
        "before the frame's"
    );
    assert_eq!(numbers::map(&mut pool, space.handle(), 1 << 47, 0, 8192, 0).reason, Reason::Size.number());
    assert_eq!(numbers::map(&mut pool, space.handle(), 1 << 47, 0, 4096, 8).reason, Reason::Rights.number());
    assert_eq!(numbers::protect(&mut pool, space.handle(), 1 << 47, 8).reason, Reason::Rights.number());
    let wrong = Handle { root: space.root() + 4096, ..space.handle() };
    assert_eq!(numbers::unmap(&mut pool, wrong, 1 << 47).reason, Reason::BadRoot.number(), "after the handle's");
    assert_eq!(numbers::protect(&mut pool, wrong, 1 << 47, 0).reason, Reason::BadRoot.number());
}
