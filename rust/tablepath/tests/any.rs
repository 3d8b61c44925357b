//! Bytes and numbers that make no sense are refused, and then no byte has changed.

use tablepath::numbers::{self, Handle};
use tablepath::{look_up, Found, Pages, Reason, Rights, Size, Space, Ticket};

const ORIGIN: u64 = 0x10_0000;
const HANDLE: Handle = Handle { origin: ORIGIN, pool: ORIGIN, pages: 8, root: 0x10_1000 };

fn made() -> (Box<Pages<8>>, Space) {
    let mut pool = Box::new(Pages::ZERO);
    pool.fill(0xa5);
    let space = Space::create(&mut pool, ORIGIN, ORIGIN, 8).expect("there is room");
    assert_eq!(space.handle(), HANDLE);
    (pool, space)
}

#[test]
fn no_bytes_at_all() {
    let none = &mut [];
    assert_eq!(numbers::create(none, 0, 0, 0).reason, Reason::PoolSmall.number());
    let outside = Reason::PoolOutside.number();
    assert_eq!(numbers::map(none, HANDLE, 0, 0, 4096, 0).reason, outside);
    assert_eq!(numbers::unmap(none, HANDLE, 0).reason, outside);
    assert_eq!(numbers::protect(none, HANDLE, 0, 0).reason, outside);
    assert_eq!(numbers::told(none, HANDLE, 1).reason, outside);
    assert_eq!(numbers::state(none, HANDLE).reason, outside);
    assert_eq!(look_up(none, 0, 0, 0), Found::Outside);
    assert_eq!(look_up(none, 0, 0, 1 << 47), Found::NoAddress);
}

#[test]
fn pools_that_are_not_made() {
    let mut bytes = Box::new(Pages::<8>::ZERO);
    bytes.fill(0xa5);
    let before = bytes.clone();
    let mut create = |len: usize, origin, pool, pages| {
        Reason::of(numbers::create(&mut bytes[..len], origin, pool, pages).reason).expect_err("it is refused")
    };
    assert_eq!(create(4096, 1, 0, 1), Reason::OriginUnaligned);
    assert_eq!(create(4097, 0, 0, 1), Reason::LengthUnaligned);
    assert_eq!(create(4096, 0, 1, 1), Reason::PoolUnaligned);
    assert_eq!(create(4096, 0, 0, u64::MAX), Reason::PoolLarge);
    assert_eq!(create(4096, 0, 0, 1), Reason::PoolSmall);
    assert_eq!(create(4096, 0, 0, 8), Reason::PoolOutside);
    assert!(bytes == before);
}

#[test]
fn bytes_that_begin_elsewhere_in_a_page() {
    let (mut pool, space) = made();
    let before = pool.clone();
    let refused = Some(Reason::PointerUnaligned);
    for odd in [1, 8, 4095] {
        assert_eq!(Space::create(&mut pool[odd..], ORIGIN, ORIGIN, 7).err(), refused);
        assert_eq!(Space::open(&pool[odd..], ORIGIN, ORIGIN, 8, space.root()).err(), refused);
        assert_eq!(space.map(&mut pool[odd..], 0, 0, Size::Kib4, Rights::NONE).err(), refused);
        assert_eq!(space.unmap(&mut pool[odd..], 0).err(), refused);
        assert_eq!(space.protect(&mut pool[odd..], 0, Rights::NONE).err(), refused);
        assert_eq!(space.told(&mut pool[odd..], Ticket::from(0)).err(), refused);
        assert_eq!(space.state(&pool[odd..]).err(), refused);
    }
    assert!(pool == before);
}

#[test]
fn each_reason_that_sound_bytes_can_give() {
    let (mut pool, space) = made();
    assert_eq!(
        space.map(&mut pool, 0x4000_0000, 0x800_0000, Size::Mib2, Rights::USER).map(|mapped| mapped.tables),
        Ok(2)
    );
    let before = pool.clone();
    let mut map = |base, frame, size| space.map(&mut pool, base, frame, size, Rights::NONE).unwrap_err();
    let refused = [
        (map(0x1000, 0, Size::Mib2), Reason::BaseUnaligned),
        (map(0, 0x1000, Size::Mib2), Reason::FrameUnaligned),
        (map(1 << 47, 0, Size::Gib1), Reason::BaseRange),
        (map(0, 1 << 52, Size::Gib1), Reason::FrameRange),
        (map(0, ORIGIN, Size::Kib4), Reason::FrameInPool),
        (map(0x4000_1000, 0, Size::Kib4), Reason::Overlap),
    ];
    for (is, should) in refused {
        assert_eq!(is, should);
    }
    assert_eq!(space.unmap(&mut pool, 0x4000_1000), Err(Reason::NothingStarts));
    assert_eq!(space.protect(&mut pool, 0x4000_1000, Rights::NONE), Err(Reason::NothingStarts));
    assert_eq!(space.told(&mut pool, Ticket::from(u64::MAX)), Err(Reason::UnknownTicket));
    let rights = Reason::Rights.number();
    assert_eq!(numbers::map(&mut pool, HANDLE, 1, 1, 1, 8).reason, rights, "before all else");
    assert_eq!(numbers::protect(&mut pool, Handle { pool: 1, ..HANDLE }, 1, u64::MAX).reason, rights);
    assert!(pool == before);
}

#[test]
fn a_pool_that_runs_dry() {
    let (mut pool, space) = made();
    let spread = |pool: &mut [u8], which: u64| space.map(pool, which << 39, 0, Size::Kib4, Rights::NONE);
    assert_eq!(spread(&mut pool, 0).map(|mapped| mapped.tables), Ok(3));
    assert_eq!(spread(&mut pool, 1).map(|mapped| mapped.tables), Ok(3));
    let before = pool.clone();
    assert_eq!(spread(&mut pool, 2), Err(Reason::NoRoom));
    assert!(pool == before);
}

#[test]
fn a_ticket_from_every_unmap_and_every_protect() {
    let (mut pool, space) = made();
    for base in [0, 0x1000] {
        space.map(&mut pool, base, 0x80_0000 + base, Size::Kib4, Rights::NONE).unwrap();
    }
    let first = space.unmap(&mut pool, 0).unwrap();
    assert_eq!((first.aside, first.ticket), (0, Ticket::from(0)), "no table was ever set aside");
    let second = space.unmap(&mut pool, 0x1000).unwrap();
    assert_eq!((second.aside, second.frame, second.ticket), (3, 0x80_1000, Ticket::from(3)));
    space.map(&mut pool, 0, 0x4000_0000, Size::Gib1, Rights::NONE).unwrap();
    assert_eq!(space.protect(&mut pool, 0, Rights::USER).unwrap().ticket, second.ticket, "none since");
    assert_eq!(space.state(&pool).unwrap().ticket, second.ticket);
    assert_eq!(space.told(&mut pool, first.ticket), Ok(0), "an older ticket releases less");
    assert_eq!(space.told(&mut pool, second.ticket), Ok(3));
    assert_eq!(space.state(&pool).unwrap().aside, 0);
}
