//! Page tables in a pool, as a careful kernel developer would write them in Rust: what the proved library is raced against.
//! `checked` has the same operations, refusals and bytes, in safe Rust. `raw` has unchecked reads and writes, and refuses
//! only what cannot be done: the floor. Both keep the same book: a book that one wrote, the other reads.
#![no_std]

mod book;
pub mod checked;
pub mod raw;
mod words;

pub use words::{NOEXEC, USER, WRITABLE};

/// Where the tables are: the physical address of the window's first byte, of the pool's first page and of the root table,
/// and how many pages the pool has.
#[derive(Clone, Copy, PartialEq, Eq, Debug)]
pub struct Space {
    pub origin: u64,
    pub pool: u64,
    pub pages: u64,
    pub root: u64,
}

/// Why an operation is refused, with the numbers that the library has for it.
#[derive(Clone, Copy, PartialEq, Eq, Debug)]
#[repr(u64)]
pub enum Reason {
    // tools/reasons: reasons (of include/reasons.txt)
    /// The size is none of the three.
    Size = 1,
    /// The base is no multiple of the size.
    BaseUnaligned = 2,
    /// The frame is no multiple of the size.
    FrameUnaligned = 3,
    /// The base is no address: it is not canonical.
    BaseRange = 4,
    /// The frame ends beyond 2^52.
    FrameRange = 5,
    /// The frame and the pool share a byte.
    FrameInPool = 6,
    /// Some address of the range is mapped.
    Overlap = 7,
    /// Fewer free pages than tables that are missing.
    NoRoom = 8,
    /// No page starts at the base.
    NothingStarts = 9,
    /// The way leads to a table that is not of the pool.
    Stray = 10,
    /// The book lists as free what it can't.
    BadList = 11,
    /// The origin is no multiple of 4096.
    OriginUnaligned = 12,
    /// The window's length is no multiple of 4096.
    LengthUnaligned = 13,
    /// The pool's address is no multiple of 4096.
    PoolUnaligned = 14,
    /// The root's address is no multiple of 4096.
    RootUnaligned = 15,
    /// More pages than a book can list.
    PoolLarge = 16,
    /// No room for the book and a root.
    PoolSmall = 17,
    /// The pool does not lie in the window.
    PoolOutside = 18,
    /// The root is no page of the pool behind its book, or not the book's.
    BadRoot = 19,
    /// No pool was made here.
    NoBook = 20,
    /// A pool of another size was made here.
    OtherBook = 21,
    /// The book does not add up.
    BadBook = 22,
    /// A ticket above the present one.
    UnknownTicket = 23,
    /// No ticket is left: 2^62 tables were set aside.
    SpentTickets = 24,
    /// The rights have a bit that means nothing.
    Rights = 25,
    /// The page would be writable and executable.
    WriteExecute = 27,
    // tools/reasons: end
}

/// The page that was unmapped. `ticket` is what `told` takes once every cache knows.
#[derive(Clone, Copy, PartialEq, Eq, Debug)]
pub struct Unmapped {
    pub frame: u64,
    pub size: u64,
    pub aside: u64,
    pub ticket: u64,
}

#[derive(Clone, Copy, PartialEq, Eq, Debug)]
pub struct Protected {
    pub frame: u64,
    pub size: u64,
    pub ticket: u64,
}

/// What an address means.
#[derive(Clone, Copy, PartialEq, Eq, Debug)]
pub enum Meaning {
    Nothing,
    Page {
        base: u64,
        size: u64,
        frame: u64,
        rights: u64,
    },
    /// The way leads to a table that is not wholly in the window.
    Outside,
    NoAddress,
}
