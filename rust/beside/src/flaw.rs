//! What is done wrongly on purpose, and has to be found out.

#[derive(Clone, Copy, PartialEq, Eq, Debug)]
pub enum Flaw {
    None,
    /// A table is linked and then cleared.
    LinkThenClear,
    /// An empty table is unlinked, and then the page's entry in it is cleared.
    UnlinkThenClear,
    /// A word is written in two halves.
    Halves,
    /// Rights are changed by way of an entry that is not present.
    ProtectByClearing,
    /// Told while walks that had begun go on.
    ToldBeforeWalksEnd,
    /// Told while a cache keeps what it had.
    ToldBeforeCachesDrop,
    /// Each shootdown leaves out one of its pages.
    OnePageTooFew,
    /// INVLPG drops the translation, and no upper entry.
    InvlpgKeepsUpper,
    /// A shootdown tells the pages of its beginning, and is reported with the ticket of its end.
    TicketOfTheEnd,
    /// Reported with the ticket of this moment, though calls came since the shootdown began.
    TicketOfLaterCalls,
    /// Reported when it is done, though an older shootdown is not.
    OlderNotDone,
    /// A frame counts as gone when it is unmapped, before the report.
    FrameBeforeReport,
}

impl Flaw {
    /// Those of reports and of INVLPG.
    pub const OF_REPORTS: [Flaw; 6] = [
        Flaw::ToldBeforeCachesDrop,
        Flaw::OnePageTooFew,
        Flaw::InvlpgKeepsUpper,
        Flaw::TicketOfTheEnd,
        Flaw::TicketOfLaterCalls,
        Flaw::FrameBeforeReport,
    ];

    /// Words of the trouble that it has to make.
    pub fn words(self) -> &'static str {
        match self {
            Flaw::FrameBeforeReport => "which is gone",
            _ => "",
        }
    }
}
