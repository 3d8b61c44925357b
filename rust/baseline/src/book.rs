//! The book of a pool, in its first pages: a header, a ring with a slot for each page of the pool, and a count for each.
//! From the head on the ring lists the free pages, the oldest first, and right behind them the pages that are set aside.

/// "the-book", in ASCII.
pub const MARK: u64 = u64::from_le_bytes(*b"the-book");
pub const MOST_PAGES: u64 = 1 << 32;
pub const LAST_TICKET: u64 = 1 << 62;

/// Words of the header.
pub const THE_MARK: usize = 0;
pub const PAGES: usize = 1;
pub const ROOT: usize = 2;
pub const TICKETS: usize = 3;
pub const FREE: usize = 4;
pub const ASIDE: usize = 5;
pub const HEAD: usize = 6;
/// Where the ring starts.
pub const SLOTS: usize = 16;

/// How many pages the book has.
#[inline]
pub const fn book_pages(pages: u64) -> u64 {
    (SLOTS as u64 + 2 * pages + 511) / 512
}

/// A word of a new pool's header.
#[inline]
pub fn new_header(word: usize, pages: u64, root: u64, free: u64) -> u64 {
    match word {
        THE_MARK => MARK,
        PAGES => pages,
        ROOT => root,
        FREE => free,
        _ => 0,
    }
}

#[derive(Clone, Copy)]
pub struct Book {
    pub pages: u64,
    pub head: u64,
    pub free: u64,
    pub aside: u64,
    /// How many pages were ever released.
    pub tickets: u64,
}

impl Book {
    /// The word of the slot at this position behind the head.
    #[inline]
    pub fn slot(&self, position: u64) -> usize {
        SLOTS + self.turn(position) as usize
    }

    /// The head after so many pages were taken.
    #[inline]
    pub fn turn(&self, position: u64) -> u64 {
        let at = self.head + position;
        if at < self.pages {
            at
        } else {
            at - self.pages
        }
    }
}
