//! One entry, for whoever draws tables or looks for damage in them.

use crate::{numbers, Rights};

/// What one entry of a table says.
#[must_use]
#[derive(Clone, Copy, PartialEq, Eq, Hash, Debug)]
pub enum Entry {
    /// Nothing: it is not present.
    Absent,
    /// It is present, but reserved bits are set: a walk finds nothing.
    Damaged,
    /// A page.
    Page {
        /// Where it lies in physical memory.
        frame: u64,
        /// The entry's own.
        rights: Rights,
        /// The machine has walked through the entry.
        accessed: bool,
        /// The machine has written to the page.
        dirty: bool,
    },
    /// A further table.
    Table {
        /// Where it lies in physical memory: perhaps outside the window.
        address: u64,
        /// What the entry grants.
        rights: Rights,
        /// The machine has walked through the entry.
        accessed: bool,
    },
    /// There is no such table in the window, no such index, or no such level.
    Outside,
}

impl From<numbers::Said> for Entry {
    /// The library answers no sixth kind.
    fn from(said: numbers::Said) -> Entry {
        let numbers::Said { kind, address, rights, marks } = said;
        let (rights, accessed, dirty) = (Rights::answered(rights), marks & 1 != 0, marks & 2 != 0);
        match kind {
            0 => Entry::Absent,
            1 => Entry::Page { frame: address, rights, accessed, dirty },
            3 => Entry::Table { address, rights, accessed },
            4 => Entry::Damaged,
            _ => Entry::Outside,
        }
    }
}

/// What the entry with this index says, of the table at this physical address (as in CR3), whose entries are of this level: 3 at the
/// root, 0 at the last table. It is what a walk goes by at this entry; for any bytes and any numbers.
///
/// ```
/// use tablepath::{entry, Entry, Pages, Reason, Rights, Size, Space};
///
/// let mut pool = Box::new(Pages::<8>::ZERO);
/// let space = Space::create(&mut pool, 0x10_0000, 0x10_0000, 8)?;
/// space.map(&mut pool, 0x4000_0000, 0x8000_0000, Size::Gib1, Rights::NO_EXECUTE)?;
///
/// let Entry::Table { address, rights, accessed } = entry(&pool, space.origin(), space.root(), 3, 0) else { panic!() };
/// assert_eq!((rights, accessed), (Rights::WRITABLE | Rights::USER, false));
/// let page = Entry::Page { frame: 0x8000_0000, rights: Rights::NO_EXECUTE, accessed: false, dirty: false };
/// assert_eq!(entry(&pool, space.origin(), address, 2, 1), page);
/// assert_eq!(entry(&pool, space.origin(), address, 2, 2), Entry::Absent);
/// assert_eq!(entry(&pool, space.origin(), 0, 2, 2), Entry::Outside);
/// # Ok::<(), Reason>(())
/// ```
pub fn entry(mem: &[u8], origin: u64, table: u64, level: u64, index: u64) -> Entry {
    numbers::entry(mem, origin, table, level, index).into()
}
