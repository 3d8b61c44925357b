//! Rights, as bits that are put together by `|`.

use crate::Reason;
use core::fmt;
use core::ops::{BitOr, BitOrAssign};

/// What may be done with a page: it can be read, and what is named here too. [`map`](crate::Space::map) and
/// [`protect`](crate::Space::protect) refuse to make a page writable and executable, [`Reason::WriteExecute`]: with `WRITABLE` they want
/// `NO_EXECUTE`.
///
/// ```
/// use tablepath::Rights;
///
/// let rights = Rights::WRITABLE | Rights::NO_EXECUTE;
/// assert!(rights.contains(Rights::WRITABLE) && !rights.contains(Rights::USER));
/// assert_eq!(rights.to_string(), "rw- kernel");
/// ```
#[derive(Clone, Copy, PartialEq, Eq, Hash, Default)]
pub struct Rights(u64);

impl Rights {
    /// The kernel may read and execute it.
    pub const NONE: Rights = Rights(0);
    /// It may be written; then `NO_EXECUTE` must be there too, where it is asked for.
    pub const WRITABLE: Rights = Rights(1);
    /// User code may do with it what the kernel may.
    pub const USER: Rights = Rights(2);
    /// Nothing in it is executed.
    pub const NO_EXECUTE: Rights = Rights(4);

    /// C's number: bit 0 writable, bit 1 user, bit 2 not executable.
    pub const fn bits(self) -> u64 {
        self.0
    }

    /// Of C's number; a bit above the third means nothing, and is refused as map and protect refuse it.
    ///
    /// ```
    /// use tablepath::{Reason, Rights};
    /// assert_eq!(Rights::from_bits(3), Ok(Rights::WRITABLE | Rights::USER));
    /// assert_eq!(Rights::from_bits(8), Err(Reason::Rights));
    /// ```
    pub const fn from_bits(bits: u64) -> Result<Rights, Reason> {
        if bits < 8 {
            Ok(Rights(bits))
        } else {
            Err(Reason::Rights)
        }
    }

    /// Rights that the library answered: it answers no other bits.
    pub(crate) const fn answered(bits: u64) -> Rights {
        Rights(bits & 7)
    }

    /// Are all of these among them?
    pub const fn contains(self, these: Rights) -> bool {
        self.0 & these.0 == these.0
    }
}

impl BitOr for Rights {
    type Output = Rights;

    fn bitor(self, other: Rights) -> Rights {
        Rights(self.0 | other.0)
    }
}

impl BitOrAssign for Rights {
    fn bitor_assign(&mut self, other: Rights) {
        *self = *self | other;
    }
}

/// As a kernel developer reads them: `rwx user`, `r-- kernel`.
impl fmt::Display for Rights {
    fn fmt(&self, to: &mut fmt::Formatter<'_>) -> fmt::Result {
        let write = if self.contains(Rights::WRITABLE) { 'w' } else { '-' };
        let execute = if self.contains(Rights::NO_EXECUTE) { '-' } else { 'x' };
        let whose = if self.contains(Rights::USER) { "user" } else { "kernel" };
        write!(to, "r{write}{execute} {whose}")
    }
}

impl fmt::Debug for Rights {
    fn fmt(&self, to: &mut fmt::Formatter<'_>) -> fmt::Result {
        write!(to, "Rights({self})")
    }
}
