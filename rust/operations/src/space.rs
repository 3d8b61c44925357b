//! A space, and when it makes no sense: worked out in numbers that cannot overflow.

use crate::layout::HEADER;
use crate::reasons;
use std::fmt;

/// The physical address of the window's first byte, of the pool's first page and of the root table, and how many pages the
/// pool has.
#[derive(Clone, Copy, PartialEq, Eq, Debug)]
pub struct Space {
    pub origin: u64,
    pub pool: u64,
    pub pages: u64,
    pub root: u64,
}

impl Space {
    /// How many pages hold the book: its header, and two words for each page of the pool.
    pub fn book(&self) -> u64 {
        book(self.pages)
    }

    /// The physical address of the first page behind the book, and that after the last.
    pub fn behind(&self) -> u64 {
        self.pool + 4096 * self.book()
    }

    pub fn end(&self) -> u64 {
        self.pool + 4096 * self.pages
    }

    /// Why the space is refused, in a window of so many bytes.
    pub fn refused(&self, len: usize) -> u64 {
        if self.pool % 4096 != 0 {
            return reasons::POOL_UNALIGNED;
        }
        if self.root % 4096 != 0 {
            return reasons::ROOT_UNALIGNED;
        }
        let reason = pool_refused(len, self.origin, self.pool, self.pages);
        if reason != reasons::DONE {
            return reason;
        }
        if (self.behind()..self.end()).contains(&self.root) {
            reasons::DONE
        } else {
            reasons::BAD_ROOT
        }
    }
}

fn book(pages: u64) -> u64 {
    let bytes = 8 * (u128::from(HEADER) + 2 * u128::from(pages));
    bytes.div_ceil(4096) as u64
}

fn pool_refused(len: usize, origin: u64, pool: u64, pages: u64) -> u64 {
    let wide = |number: u64| u128::from(number);
    let (start, end) = (wide(pool), wide(pool) + 4096 * wide(pages));
    if pages > 4 << 30 {
        reasons::POOL_LARGE
    } else if wide(pages) < wide(book(pages)) + 1 + 1 {
        reasons::POOL_SMALL
    } else if start < wide(origin) || end > wide(origin) + len as u128 || end > 1 << 52 {
        reasons::POOL_OUTSIDE
    } else {
        reasons::DONE
    }
}

/// Why a pool is not made.
pub fn create_refused(len: usize, origin: u64, pool: u64, pages: u64) -> u64 {
    match () {
        () if origin % 4096 != 0 => reasons::ORIGIN_UNALIGNED,
        () if len % 4096 != 0 => reasons::LENGTH_UNALIGNED,
        () if pool % 4096 != 0 => reasons::POOL_UNALIGNED,
        () => pool_refused(len, origin, pool, pages),
    }
}

/// The space of a pool that was just made.
pub fn made(origin: u64, pool: u64, pages: u64) -> Space {
    Space { origin, pool, pages, root: pool + 4096 * book(pages) }
}

impl fmt::Display for Space {
    fn fmt(&self, to: &mut fmt::Formatter) -> fmt::Result {
        let Space { origin, pool, pages, root } = self;
        write!(to, "origin {origin:#x}, pool {pool:#x} of {pages} pages, root {root:#x}")
    }
}
