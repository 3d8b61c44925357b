//! Memory that another may write at any moment, while it is read word by word.

#[derive(Clone, Copy)]
pub struct Shared {
    pub bytes: *mut u8,
    pub len: usize,
    pub origin: u64,
}

// SAFETY: every read and write through it is volatile, of one aligned word; whoever makes one sees to it that the bytes
// stay where they are.
unsafe impl Send for Shared {}
unsafe impl Sync for Shared {}

impl Shared {
    pub fn of(words: &mut [u64], origin: u64) -> Shared {
        Shared { bytes: words.as_mut_ptr().cast(), len: 8 * words.len(), origin }
    }

    fn word(&self, address: u64) -> Option<*mut u64> {
        let place = usize::try_from(address.checked_sub(self.origin)?).ok()?;
        // SAFETY: in the bytes.
        (place + 8 <= self.len).then(|| unsafe { self.bytes.add(place).cast() })
    }

    pub fn read(&self, address: u64) -> Option<u64> {
        self.word(address).map(|word| unsafe { word.read_volatile() })
    }

    pub fn write(&self, address: u64, to: u64) {
        unsafe { self.word(address).expect("in the window").write_volatile(to) }
    }

    /// All of the bytes, for an operation.
    /// # Safety
    /// Others may read them by `read` meanwhile. That is what is tested, and no Rust code may look at them through this.
    #[allow(clippy::mut_from_ref)]
    pub unsafe fn lent(&self) -> &mut [u8] {
        std::slice::from_raw_parts_mut(self.bytes, self.len)
    }
}
