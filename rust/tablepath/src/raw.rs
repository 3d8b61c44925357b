//! The archive's functions as they are, over a pointer: for memory to which no reference may be made.
//!
//! While CR3 names the root, processors read the tables and mark words in them. `&mut [u8]` says to the compiler that nobody else does, for as
//! long as it is used. These functions take the pointer, so that no reference is there at all; what they answer is as in [`numbers`](crate::numbers),
//! and the header `tablepath.h` says what it means.
//!
//! # Safety
//!
//! Of each: `mem` points at `len` bytes that may be read, and by those that write also written, for the whole call; nobody but processors that
//! walk and mark writes the pool meanwhile. Nothing is demanded of the bytes, nor of the numbers. What a table's words are written by is one
//! store each where `mem` and `origin` agree modulo 4096, which [`Space`](crate::Space) tests, and these don't.

use crate::numbers::{Counts, Created, LookedUp, Mapped, Protected, Said, Told, Unmapped};

// Two words come back in registers, by C's convention on each processor and by that of the module alike.
#[rustfmt::skip]
extern "C" {
    /// Makes a pool, its book and an empty root.
    pub fn tp_raw_create(mem: *mut u8, len: usize, origin: u64, pool: u64, pages: u64) -> Created;
    /// Maps a frame.
    pub fn tp_raw_map(
        mem: *mut u8, len: usize, origin: u64, pool: u64, pages: u64, root: u64,
        base: u64, frame: u64, size: u64, rights: u64,
    ) -> Mapped;
    /// Reports a shootdown.
    pub fn tp_raw_told(mem: *mut u8, len: usize, origin: u64, pool: u64, pages: u64, root: u64, ticket: u64) -> Told;
}

/// A function whose answer has more than two words. On x86-64 it is C's. Elsewhere the module is one that was lowered for x86-64
/// and compiled once more (tools/native-archive): it takes where to put the answer as its first argument, which is not how C has
/// it there.
macro_rules! long {
    ($(#[$says:meta])* $name:ident($($argument:ident: $type:ty),*) -> $answer:ident) => {
        #[cfg(target_arch = "x86_64")]
        extern "C" {
            $(#[$says])*
            pub fn $name($($argument: $type),*) -> $answer;
        }

        #[cfg(not(target_arch = "x86_64"))]
        $(#[$says])*
        ///
        /// # Safety
        ///
        /// As of all in this module.
        #[allow(clippy::too_many_arguments)]
        #[inline]
        pub unsafe fn $name($($argument: $type),*) -> $answer {
            extern "C" {
                fn $name(to: *mut $answer, $($argument: $type),*);
            }
            let mut answer = core::mem::MaybeUninit::uninit();
            // SAFETY: the answer is here until the call is over, and the library sets every field of it; the rest is as the caller has it.
            unsafe {
                $name(answer.as_mut_ptr(), $($argument),*);
                answer.assume_init()
            }
        }
    };
}

long!(
    /// Unmaps a page.
    tp_raw_unmap(mem: *mut u8, len: usize, origin: u64, pool: u64, pages: u64, root: u64, base: u64) -> Unmapped
);
long!(
    /// Gives a page other rights.
    tp_raw_protect(mem: *mut u8, len: usize, origin: u64, pool: u64, pages: u64, root: u64, base: u64, rights: u64) -> Protected
);
long!(
    /// Counts the pool's pages.
    tp_raw_state(mem: *const u8, len: usize, origin: u64, pool: u64, pages: u64, root: u64) -> Counts
);
long!(
    /// What an address means.
    tp_raw_look_up(mem: *const u8, len: usize, origin: u64, root: u64, va: u64) -> LookedUp
);
long!(
    /// What one entry says.
    tp_raw_entry(mem: *const u8, len: usize, origin: u64, table: u64, level: u64, index: u64) -> Said
);
