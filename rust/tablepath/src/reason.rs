//! Reasons, each in the words of the header.

use core::fmt;

macro_rules! reasons {
    ($($name:ident = $number:literal, $words:literal;)*) => {
        /// Why something was refused; then no byte has changed.
        ///
        /// ```
        /// use tablepath::{Pages, Reason, Rights, Size, Space};
        ///
        /// let mut pool = Box::new(Pages::<8>::ZERO);
        /// let space = Space::create(&mut pool, 0x10_0000, 0x10_0000, 8)?;
        /// let before = pool.clone();
        /// let refused = space.map(&mut pool, 0x1000, 0x20_0000, Size::Mib2, Rights::USER);
        /// assert_eq!(refused, Err(Reason::BaseUnaligned));
        /// assert_eq!(refused.unwrap_err().to_string(), "the base is no multiple of the size");
        /// assert!(pool == before);
        /// # Ok::<(), Reason>(())
        /// ```
        #[derive(Clone, Copy, PartialEq, Eq, Hash, Debug)]
        #[non_exhaustive]
        pub enum Reason {
            $(#[doc = $words] $name,)*
            /// A number that this crate does not know, from a library that is newer.
            Other(u64),
        }

        impl Reason {
            /// Every reason that this crate knows, by number, from 1 on.
            pub const ALL: &'static [Reason] = &[$(Reason::$name),*];

            /// The number that C has for it.
            pub const fn number(self) -> u64 {
                match self {
                    $(Reason::$name => $number,)*
                    Reason::Other(number) => number,
                }
            }

            /// What C's number says: 0 is done, and any other a reason.
            ///
            /// ```
            /// use tablepath::Reason;
            /// assert_eq!(Reason::of(0), Ok(()));
            /// assert_eq!(Reason::of(8), Err(Reason::NoRoom));
            /// assert_eq!(Reason::of(99), Err(Reason::Other(99)));
            /// ```
            pub const fn of(number: u64) -> Result<(), Reason> {
                match number {
                    0 => Ok(()),
                    $($number => Err(Reason::$name),)*
                    _ => Err(Reason::Other(number)),
                }
            }
        }

        impl fmt::Display for Reason {
            fn fmt(&self, to: &mut fmt::Formatter<'_>) -> fmt::Result {
                match self {
                    $(Reason::$name => to.write_str($words),)*
                    Reason::Other(number) => write!(to, "a reason with the number {number}, which is not known here"),
                }
            }
        }
    };
}

reasons! {
    // tools/reasons: reasons (of include/reasons.txt)
    Size = 1, "the size is none of the three";
    BaseUnaligned = 2, "the base is no multiple of the size";
    FrameUnaligned = 3, "the frame is no multiple of the size";
    BaseRange = 4, "the base is no address: it is not canonical";
    FrameRange = 5, "the frame ends beyond 2^52";
    FrameInPool = 6, "the frame and the pool share a byte";
    Overlap = 7, "some address of the range is mapped";
    NoRoom = 8, "fewer free pages than tables that are missing";
    NothingStarts = 9, "no page starts at the base";
    Stray = 10, "the way leads to a table that is not of the pool";
    BadList = 11, "the book lists as free what it can't";
    OriginUnaligned = 12, "the origin is no multiple of 4096";
    LengthUnaligned = 13, "the window's length is no multiple of 4096";
    PoolUnaligned = 14, "the pool's address is no multiple of 4096";
    RootUnaligned = 15, "the root's address is no multiple of 4096";
    PoolLarge = 16, "more pages than a book can list";
    PoolSmall = 17, "no room for the book and a root";
    PoolOutside = 18, "the pool does not lie in the window";
    BadRoot = 19, "the root is no page of the pool behind its book, or not the book's";
    NoBook = 20, "no pool was made here";
    OtherBook = 21, "a pool of another size was made here";
    BadBook = 22, "the book does not add up";
    UnknownTicket = 23, "a ticket above the present one";
    SpentTickets = 24, "no ticket is left: 2^62 tables were set aside";
    Rights = 25, "the rights have a bit that means nothing";
    PointerUnaligned = 26, "the pointer and the origin differ modulo 4096";
    WriteExecute = 27, "the page would be writable and executable";
    // tools/reasons: end
}

impl core::error::Error for Reason {}
