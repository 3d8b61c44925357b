//! One question: a window, CR3 and an address. And its answer, as the C ABI gives it.

use model::{Answer, End, Kind, Walk, Window};
use std::fmt;

/// What `tp_raw_look_up` answers: every field is compared, those that say nothing too.
#[derive(Clone, Copy, PartialEq, Eq, Debug)]
pub struct LookedUp {
    pub kind: u64,
    pub base: u64,
    pub size: u64,
    pub frame: u64,
    pub rights: u64,
}

impl From<Answer> for LookedUp {
    fn from(answer: Answer) -> LookedUp {
        match answer {
            Answer::Nothing => LookedUp { kind: 0, base: 0, size: 0, frame: 0, rights: 0 },
            Answer::Page { base, size, frame, rights } => {
                let rights = u64::from(rights.writable) + 2 * u64::from(rights.user) + 4 * u64::from(rights.noexec);
                LookedUp { kind: 1, base, size, frame, rights }
            }
            Answer::Outside => LookedUp { kind: 2, base: 0, size: 0, frame: 0, rights: 0 },
            Answer::NoAddress => LookedUp { kind: 5, base: 0, size: 0, frame: 0, rights: 0 },
        }
    }
}

impl fmt::Display for LookedUp {
    fn fmt(&self, to: &mut fmt::Formatter) -> fmt::Result {
        let kind = ["nothing", "page", "outside", "?", "?", "no address"].get(self.kind as usize).unwrap_or(&"?");
        let LookedUp { kind: number, base, size, frame, rights } = self;
        write!(to, "kind {number} ({kind}), base {base:#x}, size {size:#x}, frame {frame:#x}, rights {rights:#b}")
    }
}

/// The memory is more than the window, which is its bytes `from` up to `to`: what is read outside shows.
/// It lies `shift` bytes into its room, so that words are aligned in physical memory and not in the test's, or not at all.
#[derive(Clone)]
pub struct Case {
    pub room: Vec<u8>,
    pub shift: usize,
    /// The physical address of the memory's first byte. The memory may run past the last address.
    pub first: u64,
    pub from: usize,
    pub to: usize,
    pub cr3: u64,
    pub va: u64,
}

impl Case {
    /// A memory that is the window, and no more.
    pub fn new(bytes: Vec<u8>, origin: u64, cr3: u64, va: u64) -> Case {
        let to = bytes.len();
        Case { room: bytes, shift: 0, first: origin, from: 0, to, cr3, va }
    }

    pub fn memory(&self) -> &[u8] {
        &self.room[self.shift..]
    }

    pub fn window(&self) -> Window<'_> {
        Window { bytes: &self.memory()[self.from..self.to], origin: self.first.wrapping_add(self.from as u64) }
    }

    pub fn walk(&self) -> Walk {
        model::walk(self.window(), self.cr3, self.va)
    }

    /// The places of the memory's words.
    pub fn words(&self) -> impl Iterator<Item = usize> {
        (0..self.memory().len() / 8).map(|word| 8 * word)
    }

    pub fn word(&self, at: usize) -> u64 {
        let bytes = &self.memory()[at..at + 8];
        u64::from_le_bytes(bytes.try_into().expect("eight bytes"))
    }

    pub fn put(&mut self, at: usize, word: u64) {
        let at = self.shift + at;
        self.room[at..at + 8].copy_from_slice(&word.to_le_bytes());
    }
}

/// Bits 51:12 as the address that they mostly are, and the others that are 1 by their numbers.
pub fn told(word: u64) -> String {
    let address = word & 0xf_ffff_ffff_f000;
    let bits: Vec<String> = (0..64).filter(|bit| (word ^ address) >> bit & 1 == 1).map(|bit| bit.to_string()).collect();
    format!("address {address:#x}, other bits {}", if bits.is_empty() { "none".into() } else { bits.join(" ") })
}

fn name(kind: Kind) -> &'static str {
    ["PML4E", "PDPTE", "PDE", "PTE"][kind as usize]
}

/// As a person reads it who has to find what is wrong.
impl fmt::Display for Case {
    fn fmt(&self, to: &mut fmt::Formatter) -> fmt::Result {
        let window = self.window();
        let (va, len) = (self.va, window.bytes.len());
        writeln!(to, "  window   {len} bytes ({len:#x}) from physical {:#x}", window.origin)?;
        writeln!(to, "  CR3      {:#x}", self.cr3)?;
        let index = |low: u32| va >> low & 511;
        writeln!(
            to,
            "  address  {va:#x}, with the indices {}, {}, {}, {}",
            index(39),
            index(30),
            index(21),
            index(12)
        )?;
        writeln!(to, "  words of the memory, all others 0:")?;
        for at in self.words() {
            let word = self.word(at);
            if word != 0 {
                let place = if at < self.from || at + 8 > self.to { "  (not wholly in the window)" } else { "" };
                let physical = self.first.wrapping_add(at as u64);
                writeln!(to, "    {physical:#x} (entry {}): {word:#x}, {}{place}", physical % 4096 / 8, told(word))?;
            }
        }
        let walk = self.walk();
        writeln!(to, "  the walk by the manual:")?;
        for (read, kind) in walk.way.iter().zip([Kind::Pml4e, Kind::Pdpte, Kind::Pde, Kind::Pte]) {
            if let Some(read) = read {
                writeln!(to, "    {:5} at {:#x}: {:#x}", name(kind), read.address, read.word)?;
            }
        }
        match walk.end {
            End::NoAddress => writeln!(to, "    ends: it is no address, bits 47 to 63 are not alike"),
            End::Outside(kind) => {
                writeln!(to, "    ends: the table with the {} is not wholly in the window", name(kind))
            }
            End::NotPresent(kind) => writeln!(to, "    ends: the {} is not present", name(kind)),
            End::Reserved(kind) => writeln!(to, "    ends: a reserved bit of the {} is 1", name(kind)),
            End::Page(kind) => writeln!(to, "    ends: the {} is a page's", name(kind)),
        }
    }
}
