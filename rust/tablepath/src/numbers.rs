//! The operations as C has them: numbers in, and a struct of numbers out, every field of it.
//!
//! They are safe to call with any bytes and any numbers; [`Space`](crate::Space) is handier, and tests that the bytes lie where a word of a
//! table is one store, which these don't. What the numbers mean is in the header `tablepath.h`: a reason of 0 is "done", and with any other
//! reason every other field is 0.
//!
//! ```
//! let mut pool = vec![0; 8 * 4096];
//! let made = tablepath::numbers::create(&mut pool, 0x10_0000, 0x10_0000, 8);
//! assert_eq!((made.reason, made.root), (0, 0x10_1000));
//! ```

// All that is unsafe in this crate is here, and declared in `raw`.
#![allow(unsafe_code)]

use crate::raw;

/// A space as four numbers, whatever they name.
#[derive(Clone, Copy, PartialEq, Eq, Hash, Debug)]
pub struct Handle {
    /// The physical address of the window's first byte.
    pub origin: u64,
    /// The physical address of the pool's first page.
    pub pool: u64,
    /// How many pages of 4096 bytes the pool has.
    pub pages: u64,
    /// The physical address of the root table.
    pub root: u64,
}

/// Structs of numbers as the compiled library answers them.
macro_rules! answers {
    ($($(#[$says:meta])* $name:ident { $($(#[$tells:meta])* $field:ident,)* })*) => { $(
        $(#[$says])*
        #[repr(C)]
        #[derive(Clone, Copy, PartialEq, Eq, Hash, Debug, Default)]
        pub struct $name { $($(#[$tells])* pub $field: u64,)* }
    )* };
}

answers! {
    /// What [`create`] answers.
    Created {
        /// Why not; 0 where it was done.
        reason,
        /// The root's physical address.
        root,
    }
    /// What [`map`] answers.
    Mapped {
        /// Why not; 0 where it was done.
        reason,
        /// How many tables were made.
        tables,
    }
    /// What [`unmap`] answers.
    Unmapped {
        /// Why not; 0 where it was done.
        reason,
        /// Where the page lay in physical memory.
        frame,
        /// How large it was, in bytes.
        size,
        /// How many tables became empty and were set aside.
        aside,
        /// To be reported by [`told`].
        ticket,
    }
    /// What [`protect`] answers.
    Protected {
        /// Why not; 0 where it was done.
        reason,
        /// Where the page lies in physical memory.
        frame,
        /// How large it is, in bytes.
        size,
        /// To be reported by [`told`].
        ticket,
    }
    /// What [`told`] answers.
    Told {
        /// Why not; 0 where it was done.
        reason,
        /// How many pages are free again.
        released,
    }
    /// What [`state`] answers.
    Counts {
        /// Why not; 0 where it was done.
        reason,
        /// How many pages the pool has.
        pages,
        /// How many of them are free.
        free,
        /// How many are set aside.
        aside,
        /// How many are tables, but for the root.
        tables,
        /// The ticket of this moment.
        ticket,
    }
    /// What [`look_up`] answers.
    LookedUp {
        /// 0 nothing, 1 a page, 2 outside, 5 no address.
        kind,
        /// The page's first address.
        base,
        /// Its size in bytes.
        size,
        /// Where it lies in physical memory.
        frame,
        /// The rights of the whole way: bit 0 writable, bit 1 user, bit 2 not executable.
        rights,
    }
    /// What [`entry`] answers.
    Said {
        /// 0 nothing, not present; 1 a page; 2 outside; 3 a table; 4 nothing, reserved bits are set.
        kind,
        /// Where the page, or the table that it names, lies in physical memory.
        address,
        /// Its own rights: bit 0 writable, bit 1 user, bit 2 not executable.
        rights,
        /// The machine's marks: bit 0 accessed, bit 1 dirty.
        marks,
    }
}

// SAFETY, of every call below: pointer and length are those of one slice, which is lent for the call, and the library is proved to
// end and to read and write inside it alone, for any bytes and any numbers (crates/abi: no function has a `requires`).

/// `tp_raw_create`.
#[inline]
pub fn create(mem: &mut [u8], origin: u64, pool: u64, pages: u64) -> Created {
    unsafe { raw::tp_raw_create(mem.as_mut_ptr(), mem.len(), origin, pool, pages) }
}

/// `tp_raw_map`.
#[inline]
pub fn map(mem: &mut [u8], space: Handle, base: u64, frame: u64, size: u64, rights: u64) -> Mapped {
    let Handle { origin, pool, pages, root } = space;
    unsafe { raw::tp_raw_map(mem.as_mut_ptr(), mem.len(), origin, pool, pages, root, base, frame, size, rights) }
}

/// `tp_raw_unmap`.
#[inline]
pub fn unmap(mem: &mut [u8], space: Handle, base: u64) -> Unmapped {
    let Handle { origin, pool, pages, root } = space;
    unsafe { raw::tp_raw_unmap(mem.as_mut_ptr(), mem.len(), origin, pool, pages, root, base) }
}

/// `tp_raw_protect`.
#[inline]
pub fn protect(mem: &mut [u8], space: Handle, base: u64, rights: u64) -> Protected {
    let Handle { origin, pool, pages, root } = space;
    unsafe { raw::tp_raw_protect(mem.as_mut_ptr(), mem.len(), origin, pool, pages, root, base, rights) }
}

/// `tp_raw_told`.
#[inline]
pub fn told(mem: &mut [u8], space: Handle, ticket: u64) -> Told {
    let Handle { origin, pool, pages, root } = space;
    unsafe { raw::tp_raw_told(mem.as_mut_ptr(), mem.len(), origin, pool, pages, root, ticket) }
}

/// `tp_raw_state`.
#[inline]
pub fn state(mem: &[u8], space: Handle) -> Counts {
    let Handle { origin, pool, pages, root } = space;
    unsafe { raw::tp_raw_state(mem.as_ptr(), mem.len(), origin, pool, pages, root) }
}

/// `tp_raw_look_up`.
#[inline]
pub fn look_up(mem: &[u8], origin: u64, root: u64, va: u64) -> LookedUp {
    unsafe { raw::tp_raw_look_up(mem.as_ptr(), mem.len(), origin, root, va) }
}

/// `tp_raw_entry`.
#[inline]
pub fn entry(mem: &[u8], origin: u64, table: u64, level: u64, index: u64) -> Said {
    unsafe { raw::tp_raw_entry(mem.as_ptr(), mem.len(), origin, table, level, index) }
}
