//! A space, and the operations on it.

use crate::{numbers, Found, Mapped, Protected, Reason, Rights, Size, State, Ticket, Unmapped};

/// Where the window, the pool and the root are: made by [`create`](Space::create), or by [`open`](Space::open) where the book agrees.
///
/// Any bytes and any numbers may be given: every call ends, reads and writes inside the lent bytes alone, and what can't be done is
/// refused with a [`Reason`] and no byte changed. What no type can see to is yours: that the bytes are the physical memory at
/// the origin, that one call at a time writes a pool, and that [`told`](Space::told) is said truly.
///
/// The bytes are lent for each call. Where they begin must agree with the origin modulo 4096, so that a word of a table is one store: else the
/// call is refused, [`Reason::PointerUnaligned`].
#[must_use]
#[derive(Clone, Copy, PartialEq, Eq, Hash, Debug)]
pub struct Space(numbers::Handle);

/// Whether a word of a table in these bytes is one store.
fn placed(mem: &[u8], origin: u64) -> Result<(), Reason> {
    if (mem.as_ptr().addr() as u64 ^ origin) % 4096 == 0 {
        Ok(())
    } else {
        Err(Reason::PointerUnaligned)
    }
}

impl Space {
    /// Makes a pool of these pages, with its book and an empty root. What the pages held is lost.
    ///
    /// ```
    /// use tablepath::{Pages, Reason, Space};
    ///
    /// let mut window = Box::new(Pages::<16>::ZERO);
    /// let space = Space::create(&mut window, 0x10_0000, 0x10_2000, 8)?;
    /// assert_eq!(space.root(), 0x10_3000);
    /// assert_eq!(Space::create(&mut window, 0x10_0000, 0x10_2000, 99), Err(Reason::PoolOutside));
    /// # Ok::<(), Reason>(())
    /// ```
    pub fn create(mem: &mut [u8], origin: u64, pool: u64, pages: u64) -> Result<Space, Reason> {
        placed(mem, origin)?;
        let numbers::Created { reason, root } = numbers::create(mem, origin, pool, pages);
        Reason::of(reason)?;
        Ok(Space(numbers::Handle { origin, pool, pages, root }))
    }

    /// The space that [`create`](Space::create) made here with these numbers, by what its book says.
    ///
    /// ```
    /// use tablepath::{Pages, Reason, Space};
    ///
    /// let mut pool = Box::new(Pages::<8>::ZERO);
    /// assert_eq!(Space::open(&pool, 0x10_0000, 0x10_0000, 8, 0x10_1000), Err(Reason::NoBook));
    /// let space = Space::create(&mut pool, 0x10_0000, 0x10_0000, 8)?;
    /// assert_eq!(Space::open(&pool, 0x10_0000, 0x10_0000, 8, space.root()), Ok(space));
    /// assert_eq!(Space::open(&pool, 0x10_0000, 0x10_0000, 7, space.root()), Err(Reason::OtherBook));
    /// # Ok::<(), Reason>(())
    /// ```
    pub fn open(mem: &[u8], origin: u64, pool: u64, pages: u64, root: u64) -> Result<Space, Reason> {
        let space = Space(numbers::Handle { origin, pool, pages, root });
        space.state(mem)?;
        Ok(space)
    }

    /// The physical address of the window's first byte.
    pub const fn origin(self) -> u64 {
        self.0.origin
    }

    /// The physical address of the pool's first page. Its first pages hold the book.
    pub const fn pool(self) -> u64 {
        self.0.pool
    }

    /// How many pages of 4096 bytes the pool has.
    pub const fn pages(self) -> u64 {
        self.0.pages
    }

    /// The physical address of the root table, for CR3.
    pub const fn root(self) -> u64 {
        self.0.root
    }

    /// Its numbers, as C has them.
    pub const fn handle(self) -> numbers::Handle {
        self.0
    }

    /// Maps the frame at the base: the whole page, or nothing where one of its addresses is mapped.
    ///
    /// Addresses are the machine's, canonical: up to `0x7fff_ffff_ffff`, and from `0xffff_8000_0000_0000` on. A base that is none is refused,
    /// [`Reason::BaseRange`], here, by [`unmap`](Space::unmap) and by [`protect`](Space::protect). The last page ends at 2^64.
    ///
    /// Writable and executable, [`Rights::WRITABLE`] without [`Rights::NO_EXECUTE`], is refused,
    /// [`Reason::WriteExecute`], before the pool is looked at. What is asked is tested, not what is there: a page that older tables have is
    /// looked up and unmapped as any other. That no frame is mapped writable here and executable there is yours.
    ///
    /// A walk that begins when its stores have left the buffer finds the page. A cached upper entry of a table that is set aside may say
    /// "nothing" until its shootdown: such a fault is spurious, and INVLPG of the address ends it. Where the address was unmapped before and its
    /// shootdown is not done, a cache may still give the old page; so map a page of another size only after that.
    ///
    /// ```
    /// use tablepath::{Found, Page, Pages, Reason, Rights, Size, Space};
    ///
    /// let mut pool = Box::new(Pages::<8>::ZERO);
    /// let space = Space::create(&mut pool, 0x10_0000, 0x10_0000, 8)?;
    /// let (base, frame, rights) = (0x4000_0000, 0x8000_0000, Rights::WRITABLE | Rights::NO_EXECUTE);
    /// assert_eq!(space.map(&mut pool, base, frame, Size::Gib1, rights)?.tables, 1);
    ///
    /// let page = Page { base, size: Size::Gib1, frame, rights };
    /// assert_eq!(space.look_up(&pool, base + 12345), Found::Page(page));
    /// assert_eq!(space.map(&mut pool, base + 0x1000, 0, Size::Kib4, rights), Err(Reason::Overlap));
    /// space.map(&mut pool, 0xffff_ffff_c000_0000, frame, Size::Gib1, rights)?; // the last page of all
    /// assert_eq!(space.map(&mut pool, 0x8000_0000_0000, frame, Size::Gib1, rights), Err(Reason::BaseRange));
    /// assert_eq!(space.map(&mut pool, 0, frame, Size::Gib1, Rights::WRITABLE), Err(Reason::WriteExecute));
    /// # Ok::<(), Reason>(())
    /// ```
    pub fn map(self, mem: &mut [u8], base: u64, frame: u64, size: Size, rights: Rights) -> Result<Mapped, Reason> {
        placed(mem, self.0.origin)?;
        let numbers::Mapped { reason, tables } = numbers::map(mem, self.0, base, frame, size.bytes(), rights.bits());
        Reason::of(reason)?;
        Ok(Mapped { tables })
    }

    /// Unmaps the page that starts exactly at the base. Tables that become empty are set aside: nothing writes them or hands them out
    /// before the report, [`told`](Space::told), which comes after the shootdown, as does any new use of the frame.
    ///
    /// ```
    /// use tablepath::{Found, Pages, Reason, Rights, Size, Space};
    ///
    /// let mut pool = Box::new(Pages::<8>::ZERO);
    /// let space = Space::create(&mut pool, 0x10_0000, 0x10_0000, 8)?;
    /// space.map(&mut pool, 0x1000, 0x5000, Size::Kib4, Rights::USER)?;
    ///
    /// let unmapped = space.unmap(&mut pool, 0x1000)?;
    /// assert_eq!((unmapped.frame, unmapped.size, unmapped.aside), (0x5000, Size::Kib4, 3));
    /// assert_eq!(space.look_up(&pool, 0x1000), Found::Nothing);
    /// assert_eq!(space.unmap(&mut pool, 0x1000), Err(Reason::NothingStarts));
    ///
    /// // .. a fence; INVLPG of 0x1000 on every processor, and all have answered ..
    /// assert_eq!(space.told(&mut pool, unmapped.ticket), Ok(3));
    /// # Ok::<(), Reason>(())
    /// ```
    pub fn unmap(self, mem: &mut [u8], base: u64) -> Result<Unmapped, Reason> {
        placed(mem, self.0.origin)?;
        let numbers::Unmapped { reason, frame, size, aside, ticket } = numbers::unmap(mem, self.0, base);
        Reason::of(reason)?;
        Ok(Unmapped { frame, size: Size::answered(size), aside, ticket: ticket.into() })
    }

    /// Gives the page that starts exactly at the base other rights. The machine's marks, accessed and dirty, stay as they were when the entry
    /// was read. Rights that are writable and executable are refused, [`Reason::WriteExecute`], whatever is mapped. A page that
    /// becomes executable may still be written, and one that becomes writable executed, by a processor that has it in a cache, until its
    /// shootdown is done.
    ///
    /// ```
    /// use tablepath::{Pages, Reason, Rights, Size, Space};
    ///
    /// let mut pool = Box::new(Pages::<8>::ZERO);
    /// let space = Space::create(&mut pool, 0x10_0000, 0x10_0000, 8)?;
    /// space.map(&mut pool, 0x20_0000, 0x40_0000, Size::Mib2, Rights::WRITABLE | Rights::NO_EXECUTE)?;
    ///
    /// assert_eq!(space.protect(&mut pool, 0x20_0000, Rights::NONE)?.frame, 0x40_0000); // code was written, and now it is run
    /// let page = space.look_up(&pool, 0x20_0000).page().expect("it is mapped");
    /// assert_eq!(page.rights, Rights::NONE);
    /// assert_eq!(space.protect(&mut pool, 0x20_0000, Rights::WRITABLE), Err(Reason::WriteExecute));
    /// # Ok::<(), Reason>(())
    /// ```
    pub fn protect(self, mem: &mut [u8], base: u64, rights: Rights) -> Result<Protected, Reason> {
        placed(mem, self.0.origin)?;
        let numbers::Protected { reason, frame, size, ticket } = numbers::protect(mem, self.0, base, rights.bits());
        Reason::of(reason)?;
        Ok(Protected { frame, size: Size::answered(size), ticket: ticket.into() })
    }

    /// Reports a shootdown that is done, and every older one too. Tables that were set aside before its ticket are free again: the answer says
    /// how many.
    ///
    /// The shootdown: a fence, so that the stores have left this processor's buffer (MFENCE, or any locked instruction; MFENCE and LFENCE where
    /// the interrupt is sent by WRMSR, as with x2APIC); then INVLPG of each page that was unmapped since the shootdown before began, on every
    /// processor that uses these tables, and a wait until all have answered. The ticket is one that was answered before it began. A frame is free when a shootdown that began after its own unmap is done, whatever tickets were told meanwhile.
    ///
    /// ```
    /// use tablepath::{Pages, Reason, Space, Ticket};
    ///
    /// let mut pool = Box::new(Pages::<8>::ZERO);
    /// let space = Space::create(&mut pool, 0x10_0000, 0x10_0000, 8)?;
    /// assert_eq!(space.told(&mut pool, Ticket::from(7)), Err(Reason::UnknownTicket));
    /// # Ok::<(), Reason>(())
    /// ```
    pub fn told(self, mem: &mut [u8], ticket: Ticket) -> Result<u64, Reason> {
        placed(mem, self.0.origin)?;
        let numbers::Told { reason, released } = numbers::told(mem, self.0, ticket.into());
        Reason::of(reason)?;
        Ok(released)
    }

    /// How many pages of the pool are what, and the ticket of this moment.
    ///
    /// ```
    /// use tablepath::{Pages, Reason, Rights, Size, Space};
    ///
    /// let mut pool = Box::new(Pages::<8>::ZERO);
    /// let space = Space::create(&mut pool, 0x10_0000, 0x10_0000, 8)?;
    /// space.map(&mut pool, 0x1000, 0x5000, Size::Kib4, Rights::USER)?;
    /// let state = space.state(&pool)?;
    /// assert_eq!((state.pages, state.free, state.aside, state.tables), (8, 3, 0, 3)); // and the book, and the root
    /// # Ok::<(), Reason>(())
    /// ```
    pub fn state(self, mem: &[u8]) -> Result<State, Reason> {
        placed(mem, self.0.origin)?;
        let numbers::Counts { reason, pages, free, aside, tables, ticket } = numbers::state(mem, self.0);
        Reason::of(reason)?;
        Ok(State { pages, free, aside, tables, ticket: Ticket::from(ticket) })
    }

    /// What a walk from the root finds for the address; see [`look_up`].
    pub fn look_up(self, mem: &[u8], va: u64) -> Found {
        look_up(mem, self.0.origin, self.0.root, va)
    }
}

/// What a walk from this root finds for the address, in any window; the root is given as in CR3, and no pool is needed. A number that is no
/// address, which is not canonical, is said to be none, [`Found::NoAddress`], and is not looked for.
///
/// ```
/// use tablepath::{look_up, Found};
///
/// let mut window = vec![0; 4096];
/// window[0] = 7; // entry 0 names a table at physical address 0
/// assert_eq!(look_up(&window, 0x1000, 0x1000, 0xffff_8000_0000_0000), Found::Nothing);
/// assert_eq!(look_up(&window, 0x1000, 0x1000, 0), Found::Outside);
/// assert_eq!(look_up(&window, 0x1000, 0x1000, 0x8000_0000_0000), Found::NoAddress);
/// ```
pub fn look_up(mem: &[u8], origin: u64, root: u64, va: u64) -> Found {
    numbers::look_up(mem, origin, root, va).into()
}
