//! A walk that reads one entry at a time, as a machine's does, and can go on from what a cache kept of another.

use operations::LookedUp;

const NOTHING: LookedUp = LookedUp { kind: 0, base: 0, size: 0, frame: 0, rights: 0 };
pub const OUTSIDE: LookedUp = LookedUp { kind: 2, ..NOTHING };

/// A walk before it reads its next entry.
#[derive(Clone, Copy)]
pub struct Walk {
    pub va: u64,
    /// The physical address of the table, and how many levels are below its entries.
    table: u64,
    left: u32,
    /// The entries so far: what all of them have, and what any has.
    all: u64,
    any: u64,
}

pub enum Next {
    On(Walk),
    Ends(LookedUp),
}

const fn covers(left: u32) -> u64 {
    4096 << (9 * left)
}

impl Walk {
    pub fn begin(root: u64, va: u64) -> Walk {
        Walk { va, table: root, left: 3, all: u64::MAX, any: 0 }
    }

    /// The physical address of the entry that is read next.
    pub fn at(&self) -> u64 {
        self.table + self.va / covers(self.left) % 512 * 8
    }

    /// Has that address the same way up to here?
    pub fn leads_to(&self, va: u64) -> bool {
        self.va / covers(self.left + 1) == va / covers(self.left + 1)
    }

    /// Goes on for that address.
    pub fn serves(&self, va: u64) -> Option<Walk> {
        self.leads_to(va).then_some(Walk { va, ..*self })
    }

    pub fn step(self, word: u64) -> Next {
        if word & 1 == 0 {
            return Next::Ends(NOTHING);
        }
        let (all, any) = (self.all & word, self.any | word);
        if self.left > 0 && word & 0x80 == 0 {
            return Next::On(Walk { table: word & 0xf_ffff_ffff_f000, left: self.left - 1, all, any, ..self });
        }
        let size = covers(self.left);
        let reserved = if self.left == 0 { 0 } else { word & (size - 1) & !0x1fff };
        if self.left == 3 || reserved != 0 {
            return Next::Ends(NOTHING);
        }
        Next::Ends(LookedUp {
            kind: 1,
            base: self.va / size * size,
            size,
            frame: word % (1 << 52) / size * size,
            rights: all >> 1 & 1 | (all >> 2 & 1) << 1 | (any >> 63) << 2,
        })
    }
}
