//! Memory that lies as tables must.

use core::ops::{Deref, DerefMut};

/// So many pages of 4096 bytes, all 0, that begin at a page boundary: for a pool in a `static`, and for tests.
///
/// ```
/// use tablepath::{Pages, Reason, Space};
///
/// let mut pool = Box::new(Pages::<8>::ZERO);
/// let space = Space::create(&mut pool, 0x10_0000, 0x10_0000, 8)?;
/// assert_eq!(pool.len(), 8 * 4096);
/// // One byte further, an entry would lie across two words.
/// assert_eq!(Space::create(&mut pool[1..], 0x10_0000, 0x10_0000, 7), Err(Reason::PointerUnaligned));
/// # let _ = space;
/// # Ok::<(), Reason>(())
/// ```
#[derive(Clone, PartialEq, Eq)]
#[repr(C, align(4096))]
pub struct Pages<const N: usize>([[u8; 4096]; N]);

impl<const N: usize> Pages<N> {
    /// All bytes are 0.
    pub const ZERO: Pages<N> = Pages([[0; 4096]; N]);
}

impl<const N: usize> Deref for Pages<N> {
    type Target = [u8];

    fn deref(&self) -> &[u8] {
        self.0.as_flattened()
    }
}

impl<const N: usize> DerefMut for Pages<N> {
    fn deref_mut(&mut self) -> &mut [u8] {
        self.0.as_flattened_mut()
    }
}
