//! A small example: mappings of each size, made by the library; then marks and damage, as a machine and an accident make them.

use tablepath::{entry, Entry, Pages, Reason, Rights, Size, Space};

pub const ORIGIN: u64 = 0x10_0000;
const PAGES: usize = 12;
const CODE: u64 = 0x40_0000;
const BUFFERS: u64 = 0x7f00_0000_0000;
const KERNEL: u64 = 0xffff_ffff_8020_0000;

/// The window's bytes, and the space in it.
pub fn example() -> Result<(Box<Pages<PAGES>>, Space), Reason> {
    let mut bytes = Box::new(Pages::ZERO);
    let space = Space::create(&mut bytes, ORIGIN, ORIGIN, PAGES as u64)?;
    let all = Rights::WRITABLE | Rights::USER | Rights::NO_EXECUTE;
    let mut map = |base, frame, size, rights| space.map(&mut bytes, base, frame, size, rights);
    for page in 0..3 {
        map(CODE + page * 0x1000, 0x80_0000 + page * 0x1000, Size::Kib4, Rights::USER)?;
    }
    map(CODE + 0x3000, 0x90_0000, Size::Kib4, all)?;
    for page in 0..64 {
        map(BUFFERS + page * 0x20_0000, 0x4000_0000 + page * 0x20_0000, Size::Mib2, all)?;
    }
    map(BUFFERS + 0x4000_0000, 0x1_0000_0000, Size::Gib1, all)?;
    map(BUFFERS + 0x8000_0000, 0x2_0000_0000, Size::Gib1, Rights::WRITABLE | Rights::NO_EXECUTE)?;

    map(KERNEL, 0x20_0000, Size::Mib2, Rights::NONE)?;

    // The machine walks, and writes into the first buffers.
    for page in 0..3 {
        set(&mut bytes, space, CODE + page * 0x1000, 0, 0x20);
    }
    for page in 0..4 {
        set(&mut bytes, space, BUFFERS + page * 0x20_0000, 1, 0x60);
    }
    // A bit falls over in the entry of one buffer, and an entry beside the large ones names a table that nobody lent.
    set(&mut bytes, space, BUFFERS + 40 * 0x20_0000, 1, 1 << 13);
    set(&mut bytes, space, BUFFERS + 0xc000_0000, 2, 0x0dea_d000 | 7);
    Ok((bytes, space))
}

/// Sets bits in the entry of this level that the address goes through, and accessed in those above it.
fn set(bytes: &mut [u8], space: Space, va: u64, level: u64, bits: u64) {
    let mut table = space.root();
    for above in (level..4).rev() {
        let index = va >> (12 + 9 * above) & 511;
        let place = (table + 8 * index - ORIGIN) as usize;
        let word = u64::from_le_bytes(bytes[place..place + 8].try_into().expect("eight bytes"));
        let more = if above == level { bits } else { 0x20 };
        bytes[place..place + 8].copy_from_slice(&(word | more).to_le_bytes());
        if let Entry::Table { address, .. } = entry(bytes, ORIGIN, table, above, index) {
            table = address;
        }
    }
}
