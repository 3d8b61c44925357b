//! What the operations answer where nothing is refused.

use crate::{numbers, Rights, Size};

/// A page was mapped.
#[derive(Clone, Copy, PartialEq, Eq, Hash, Debug)]
pub struct Mapped {
    /// How many tables were made for it: at most 3.
    pub tables: u64,
}

/// A page was unmapped.
#[must_use = "the frame is yours again only after a shootdown, and the tables only after its report, which needs the ticket"]
#[derive(Clone, Copy, PartialEq, Eq, Hash, Debug)]
pub struct Unmapped {
    /// Where it lay in physical memory: yours again after the shootdown.
    pub frame: u64,
    /// How large it was.
    pub size: Size,
    /// How many tables became empty and were set aside.
    pub aside: u64,
    /// To be reported by [`Space::told`](crate::Space::told), after the shootdown.
    pub ticket: Ticket,
}

/// A page has other rights.
#[must_use = "processors may still use the old rights until a shootdown"]
#[derive(Clone, Copy, PartialEq, Eq, Hash, Debug)]
pub struct Protected {
    /// Where it lies in physical memory.
    pub frame: u64,
    /// How large it is.
    pub size: Size,
    /// To be reported by [`Space::told`](crate::Space::told), after the shootdown.
    pub ticket: Ticket,
}

/// How many pages of a pool are what; those not counted are the book's and the root.
#[derive(Clone, Copy, PartialEq, Eq, Hash, Debug)]
pub struct State {
    /// Of the pool.
    pub pages: u64,
    /// May become tables.
    pub free: u64,
    /// Were tables, and wait for a report.
    pub aside: u64,
    /// But for the root.
    pub tables: u64,
    /// Of this moment: what unmap or protect answered last.
    pub ticket: Ticket,
}

/// How many tables were set aside so far: what [`Space::told`](crate::Space::told) speaks of. A later one is no smaller, and is larger where a
/// table was set aside in between; calls that set none aside answer the same.
#[must_use]
#[derive(Clone, Copy, PartialEq, Eq, PartialOrd, Ord, Hash, Debug)]
pub struct Ticket(u64);

impl From<Ticket> for u64 {
    fn from(ticket: Ticket) -> u64 {
        ticket.0
    }
}

/// Of a number that was kept elsewhere. One above the present one is refused, and an older one releases less.
impl From<u64> for Ticket {
    fn from(number: u64) -> Ticket {
        Ticket(number)
    }
}

/// What a number means as an address.
#[must_use]
#[derive(Clone, Copy, PartialEq, Eq, Hash, Debug)]
pub enum Found {
    /// This page.
    Page(Page),
    /// Nothing is mapped there: it is an address, and no page has it.
    Nothing,
    /// The way leads to a table that does not lie in the window, so its bytes can't tell.
    Outside,
    /// The number is no address: it is not canonical. So it is for whatever bytes, and for no other number.
    NoAddress,
}

/// A page, as a walk finds it.
#[derive(Clone, Copy, PartialEq, Eq, Hash, Debug)]
pub struct Page {
    /// Its first address.
    pub base: u64,
    /// How large it is.
    pub size: Size,
    /// Where it lies in physical memory.
    pub frame: u64,
    /// What every entry of the way grants.
    pub rights: Rights,
}

impl Found {
    /// The page, where there is one.
    pub const fn page(self) -> Option<Page> {
        match self {
            Found::Page(page) => Some(page),
            Found::Nothing | Found::Outside | Found::NoAddress => None,
        }
    }
}

impl From<numbers::LookedUp> for Found {
    /// The library answers no fifth kind.
    fn from(found: numbers::LookedUp) -> Found {
        let numbers::LookedUp { kind, base, size, frame, rights } = found;
        match kind {
            0 => Found::Nothing,
            1 => Found::Page(Page { base, size: Size::answered(size), frame, rights: Rights::answered(rights) }),
            5 => Found::NoAddress,
            _ => Found::Outside,
        }
    }
}
