//! Numbers and what stands for them.

use tablepath::numbers::{LookedUp, Said};
use tablepath::{Entry, Found, Page, Reason, Rights, Size, Ticket};

#[test]
fn sizes() {
    for (size, bytes, words) in
        [(Size::Kib4, 4 << 10, "4 KiB"), (Size::Mib2, 2 << 20, "2 MiB"), (Size::Gib1, 1 << 30, "1 GiB")]
    {
        assert_eq!((size.bytes(), u64::from(size), size.to_string().as_str()), (bytes, bytes, words));
        assert_eq!(Size::try_from(bytes), Ok(size));
    }
    for bytes in [0, 1, 4095, 4097, 8192, 1 << 39, u64::MAX] {
        assert_eq!(Size::try_from(bytes), Err(Reason::Size));
    }
}

#[test]
fn rights() {
    let words =
        ["r-x kernel", "rwx kernel", "r-x user", "rwx user", "r-- kernel", "rw- kernel", "r-- user", "rw- user"];
    for (bits, words) in (0..).zip(words) {
        let rights = Rights::from_bits(bits).expect("its bits mean something");
        assert_eq!((rights.bits(), rights.to_string().as_str()), (bits, words));
        for (bit, right) in [Rights::WRITABLE, Rights::USER, Rights::NO_EXECUTE].into_iter().enumerate() {
            assert_eq!(rights.contains(right), bits >> bit & 1 == 1);
        }
        assert!(rights.contains(Rights::NONE) && rights.contains(rights));
    }
    for bits in [8, 9, 1 << 63, u64::MAX] {
        assert_eq!(Rights::from_bits(bits), Err(Reason::Rights));
    }
    let mut rights = Rights::default();
    assert_eq!(rights, Rights::NONE);
    rights |= Rights::USER;
    assert_eq!(Ok(rights | Rights::WRITABLE), Rights::from_bits(3));
    assert_eq!(format!("{rights:?}"), "Rights(r-x user)");
}

#[test]
fn tickets() {
    assert_eq!(u64::from(Ticket::from(5)), 5);
    assert!(Ticket::from(5) < Ticket::from(6));
}

#[test]
fn what_a_walk_found() {
    let nothing = LookedUp::default();
    assert_eq!(Found::from(nothing), Found::Nothing);
    assert_eq!(Found::from(LookedUp { kind: 2, ..nothing }), Found::Outside);
    assert_eq!(Found::from(LookedUp { kind: 5, ..nothing }), Found::NoAddress);
    let (base, frame) = (0x4000_0000, 0x8000_0000);
    for size in Size::ALL {
        let page = Page { base, size, frame, rights: Rights::USER };
        let found = Found::from(LookedUp { kind: 1, base, size: size.bytes(), frame, rights: 2 });
        assert_eq!((found, found.page()), (Found::Page(page), Some(page)));
    }
    assert_eq!([Found::Nothing.page(), Found::Outside.page(), Found::NoAddress.page()], [None; 3]);
}

#[test]
fn what_an_entry_says() {
    let bare = |kind| Entry::from(Said { kind, ..Said::default() });
    assert_eq!([bare(0), bare(2), bare(4)], [Entry::Absent, Entry::Outside, Entry::Damaged]);
    for marks in 0..4 {
        let (accessed, dirty) = (marks & 1 == 1, marks & 2 == 2);
        let said = |kind| Entry::from(Said { kind, address: 0x5000, rights: 5, marks });
        let rights = Rights::WRITABLE | Rights::NO_EXECUTE;
        assert_eq!(said(1), Entry::Page { frame: 0x5000, rights, accessed, dirty });
        assert_eq!(said(3), Entry::Table { address: 0x5000, rights, accessed });
    }
}
