//! A walk of 4-level page tables, written from the processor manual (Intel SDM volume 3, chapter "Paging",
//! "4-Level Paging"), byte by byte. It is the judge of the compiled library, so it shares nothing with it: no
//! code, no constants, no numbers for levels. Tables and entries have the manual's names.
//!
//! Two things are not the manual's. The physical width is 52 bits, so that no address bit is reserved. And only
//! a window of physical memory is at hand: a walk that comes to a table which does not lie wholly in it ends there.

pub mod vectors;

/// Bytes of physical memory, and the physical address of the first of them.
#[derive(Clone, Copy)]
pub struct Window<'a> {
    pub bytes: &'a [u8],
    pub origin: u64,
}

impl Window<'_> {
    fn byte(&self, physical: u64) -> Option<u8> {
        let place = physical.checked_sub(self.origin)?;
        self.bytes.get(usize::try_from(place).ok()?).copied()
    }

    /// The entry of the table at this physical address: eight bytes, the lowest first.
    /// A table is 4096 bytes, and its first and its last have to be in the window.
    fn entry(&self, table: u64, index: u64) -> Option<Read> {
        self.byte(table)?;
        self.byte(table + 4095)?;
        let address = table + 8 * index;
        let mut bytes = [0; 8];
        for (i, byte) in bytes.iter_mut().enumerate() {
            *byte = self.byte(address + i as u64)?;
        }
        Some(Read { address, word: u64::from_le_bytes(bytes) })
    }
}

#[derive(Clone, Copy, PartialEq, Eq, Debug)]
pub struct Rights {
    pub writable: bool,
    pub user: bool,
    pub noexec: bool,
}

#[derive(Clone, Copy, PartialEq, Eq, Debug)]
pub enum Answer {
    Page {
        base: u64,
        size: u64,
        frame: u64,
        rights: Rights,
    },
    Nothing,
    Outside,
    /// The number is no address, and the machine does not walk for it: it is a general protection fault.
    NoAddress,
}

/// The four entries of a way, from the root, as the manual calls them.
#[derive(Clone, Copy, PartialEq, Eq, Debug)]
pub enum Kind {
    Pml4e,
    Pdpte,
    Pde,
    Pte,
}

/// Why a walk ended, and at which entry.
#[derive(Clone, Copy, PartialEq, Eq, Debug)]
pub enum End {
    NoAddress,
    Outside(Kind),
    NotPresent(Kind),
    Reserved(Kind),
    Page(Kind),
}

/// An entry that the walk read.
#[derive(Clone, Copy, PartialEq, Eq, Debug)]
pub struct Read {
    pub address: u64,
    pub word: u64,
}

/// What the walk answers, why, and the entries that it read, from the root's on.
#[derive(Clone, Copy, PartialEq, Eq, Debug)]
pub struct Walk {
    pub answer: Answer,
    pub end: End,
    pub way: [Option<Read>; 4],
}

/// The bits high:low of a word, as the manual writes a field.
const fn bits(word: u64, high: u32, low: u32) -> u64 {
    (word >> low) & (u64::MAX >> (63 - (high - low)))
}

const fn bit(word: u64, at: u32) -> bool {
    bits(word, at, at) == 1
}

struct Page {
    kind: Kind,
    base: u64,
    size: u64,
    frame: u64,
}

struct Walker<'a> {
    window: Window<'a>,
    rights: Rights,
    way: [Option<Read>; 4],
}

impl Walker<'_> {
    /// The entry, which is present; its rights count for the whole way ("4.6 Access Rights").
    fn present(&mut self, kind: Kind, table: u64, index: u64) -> Result<u64, End> {
        let read = self.window.entry(table, index).ok_or(End::Outside(kind))?;
        self.way[kind as usize] = Some(read);
        let word = read.word;
        if !bit(word, 0) {
            return Err(End::NotPresent(kind));
        }
        if !bit(word, 1) {
            self.rights.writable = false;
        }
        if !bit(word, 2) {
            self.rights.user = false;
        }
        if bit(word, 63) {
            self.rights.noexec = true;
        }
        Ok(word)
    }

    fn page(&mut self, cr3: u64, va: u64) -> Result<Page, End> {
        // "Canonical Addressing": bits 63:48 are the same as bit 47.
        if bits(va, 63, 48) != if bit(va, 47) { 0xffff } else { 0 } {
            return Err(End::NoAddress);
        }

        // "Use of CR3 with 4-Level Paging": 51:12 is the PML4 table; 3, 4 and the others are no address.
        let pml4 = bits(cr3, 51, 12) << 12;

        // "Format of a PML4 Entry that References a Page-Directory-Pointer Table": 7 is reserved.
        let pml4e = self.present(Kind::Pml4e, pml4, bits(va, 47, 39))?;
        if bit(pml4e, 7) {
            return Err(End::Reserved(Kind::Pml4e));
        }
        let pdpt = bits(pml4e, 51, 12) << 12;

        let pdpte = self.present(Kind::Pdpte, pdpt, bits(va, 38, 30))?;
        if bit(pdpte, 7) {
            // "Format of a Page-Directory-Pointer-Table Entry that Maps a 1-GByte Page": 12 is PAT, 29:13 reserved.
            if bits(pdpte, 29, 13) != 0 {
                return Err(End::Reserved(Kind::Pdpte));
            }
            let frame = bits(pdpte, 51, 30) << 30;
            return Ok(Page { kind: Kind::Pdpte, base: bits(va, 63, 30) << 30, size: 1 << 30, frame });
        }
        let pd = bits(pdpte, 51, 12) << 12;

        let pde = self.present(Kind::Pde, pd, bits(va, 29, 21))?;
        if bit(pde, 7) {
            // "Format of a Page-Directory Entry that Maps a 2-MByte Page": 12 is PAT, 20:13 reserved.
            if bits(pde, 20, 13) != 0 {
                return Err(End::Reserved(Kind::Pde));
            }
            let frame = bits(pde, 51, 21) << 21;
            return Ok(Page { kind: Kind::Pde, base: bits(va, 63, 21) << 21, size: 2 << 20, frame });
        }
        let pt = bits(pde, 51, 12) << 12;

        // "Format of a Page-Table Entry that Maps a 4-KByte Page": 7 is PAT, and nothing is reserved.
        let pte = self.present(Kind::Pte, pt, bits(va, 20, 12))?;
        Ok(Page { kind: Kind::Pte, base: bits(va, 63, 12) << 12, size: 4 << 10, frame: bits(pte, 51, 12) << 12 })
    }
}

/// What the address means, in the tables that CR3 names.
pub fn walk(window: Window, cr3: u64, va: u64) -> Walk {
    let everything = Rights { writable: true, user: true, noexec: false };
    let mut walker = Walker { window, rights: everything, way: [None; 4] };
    let (answer, end) = match walker.page(cr3, va) {
        Ok(Page { kind, base, size, frame }) => {
            (Answer::Page { base, size, frame, rights: walker.rights }, End::Page(kind))
        }
        Err(end @ End::Outside(_)) => (Answer::Outside, end),
        Err(end @ End::NoAddress) => (Answer::NoAddress, end),
        Err(end) => (Answer::Nothing, end),
    };
    Walk { answer, end, way: walker.way }
}
