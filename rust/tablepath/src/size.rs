//! The three sizes of a page.

use crate::Reason;
use core::fmt;

/// How large a page is.
///
/// ```
/// use tablepath::{Reason, Size};
///
/// assert_eq!(Size::Mib2.bytes(), 0x20_0000);
/// assert_eq!(Size::try_from(4096), Ok(Size::Kib4));
/// assert_eq!(Size::try_from(8192), Err(Reason::Size));
/// ```
#[derive(Clone, Copy, PartialEq, Eq, PartialOrd, Ord, Hash, Debug)]
pub enum Size {
    /// 4096 bytes.
    Kib4,
    /// 2 MiB.
    Mib2,
    /// 1 GiB.
    Gib1,
}

impl Size {
    /// All three, the smallest first.
    pub const ALL: [Size; 3] = [Size::Kib4, Size::Mib2, Size::Gib1];

    /// In bytes.
    pub const fn bytes(self) -> u64 {
        match self {
            Size::Kib4 => 1 << 12,
            Size::Mib2 => 1 << 21,
            Size::Gib1 => 1 << 30,
        }
    }

    /// A size that the library answered: it answers no fourth.
    pub(crate) const fn answered(bytes: u64) -> Size {
        match bytes {
            0x1000 => Size::Kib4,
            0x20_0000 => Size::Mib2,
            _ => Size::Gib1,
        }
    }
}

impl From<Size> for u64 {
    fn from(size: Size) -> u64 {
        size.bytes()
    }
}

impl TryFrom<u64> for Size {
    type Error = Reason;

    /// The size of so many bytes.
    fn try_from(bytes: u64) -> Result<Size, Reason> {
        Size::ALL.into_iter().find(|size| size.bytes() == bytes).ok_or(Reason::Size)
    }
}

impl fmt::Display for Size {
    fn fmt(&self, to: &mut fmt::Formatter<'_>) -> fmt::Result {
        to.write_str(match self {
            Size::Kib4 => "4 KiB",
            Size::Mib2 => "2 MiB",
            Size::Gib1 => "1 GiB",
        })
    }
}
