//! What each watched address meant, state by state, and what was reported: the writer's log, against which each answer is
//! judged. The clock is odd while a change is under way: state n holds from the clock 2 n on, and may hold from 2 n - 1 on; it
//! may hold until the clock 2 n + 1.

use crate::frames::Frames;
use operations::LookedUp;

/// Where an answer came from: a walk from the root, one that went on from an upper entry, or a translation.
#[derive(Clone, Copy, PartialEq, Eq)]
pub enum From {
    Root,
    Upper,
    Translation,
}

/// An answer, and the clock at the walk's first read, at the moment from which on it may have held (earlier where it came from
/// a cache), and at its last read.
#[derive(Clone, Copy)]
pub struct Seen {
    pub which: usize,
    pub from: From,
    pub began: u64,
    pub since: u64,
    pub until: u64,
    pub answer: LookedUp,
    /// A translation that was kept over a shootdown.
    pub outlived: bool,
}

macro_rules! tally {
    ($($(#[$says:meta])* $field:ident),*) => {
        #[derive(Default, Clone, Copy)]
        pub struct Tally { $($(#[$says])* pub $field: u64),* }

        impl Tally {
            pub fn add(&mut self, other: Tally) {
                $(self.$field += other.$field;)*
            }
        }
    };
}

tally! {
    operations,
    walks,
    /// Walks whose address changed its meaning while they ran.
    raced,
    /// Walks from an upper entry, and those of them that answered what held only before they began.
    upper,
    upper_stale,
    /// Translations, those that held only before, and those that had been kept over a shootdown.
    translations,
    translations_stale,
    outlived,
    /// Turns of the walks in the midst of an operation.
    amid,
    /// Shootdowns, those that made it three under way, INVLPGs, and those done before an older one.
    shootdowns,
    three,
    invlpgs,
    overtaken,
    /// Reports that released tables, and those that were of several shootdowns.
    reports,
    batches,
    /// Frames that were gone, and mapped again.
    gone,
    again
}

pub struct Log {
    /// By watched address: since which state it means what.
    changes: Vec<Vec<(u64, LookedUp)>>,
    /// The clock of each report, and when the shootdown began: all of them, and by watched address those that told it.
    reports: Vec<(u64, u64)>,
    told: Vec<Vec<(u64, u64)>>,
    pub frames: Frames,
}

/// When the shootdown began that was the last to be reported before this clock.
fn last_began(reports: &[(u64, u64)], clock: u64) -> u64 {
    match reports.partition_point(|report| report.0 < clock) {
        0 => 0,
        count => reports[count - 1].1,
    }
}

impl Log {
    pub fn new(means: &[LookedUp]) -> Log {
        let changes: Vec<_> = means.iter().map(|means| vec![(0, *means)]).collect();
        let told = vec![vec![]; changes.len()];
        Log { changes, reports: vec![], told, frames: Frames::default() }
    }

    /// From this state on, the address means this.
    pub fn note(&mut self, state: u64, which: usize, means: LookedUp) {
        let changes = &mut self.changes[which];
        if changes.last().is_some_and(|last| last.1 != means) {
            changes.push((state, means));
        }
    }

    /// At this clock a shootdown is reported that began then, and told these addresses.
    pub fn report(&mut self, clock: u64, began: u64, told: impl Iterator<Item = usize>) {
        self.reports.push((clock, began));
        for which in told {
            self.told[which].push((clock, began));
        }
    }

    /// What the address may have meant while the clock went from `since` to `until`.
    fn held(&self, which: usize, since: u64, until: u64) -> &[(u64, LookedUp)] {
        let changes = &self.changes[which];
        let first = changes.partition_point(|change| change.0 <= since / 2) - 1;
        let end = changes.partition_point(|change| change.0 <= until.div_ceil(2));
        &changes[first..end]
    }

    /// From when on the answer may have held: by what the processor did, and by what was reported. A translation goes by the
    /// last shootdown that told its address, an upper entry by the last of all.
    fn since(&self, seen: &Seen) -> u64 {
        match seen.from {
            From::Root => seen.since,
            From::Upper => seen.since.max(last_began(&self.reports, seen.until)),
            From::Translation => seen.since.max(last_began(&self.told[seen.which], seen.until)),
        }
    }

    /// Counts the answers; one that never held in its time is wrong, and one with a frame that is gone.
    pub fn judge(&self, watched: &[u64], seen: &[Seen], tally: &mut Tally) -> Result<(), String> {
        for seen in seen {
            let Seen { which, from, began, until, answer, .. } = *seen;
            let since = self.since(seen);
            let how = match from {
                From::Root => "a walk",
                From::Upper => "a walk from an upper entry",
                From::Translation => "a translation",
            };
            let held = self.held(which, since, until);
            if held.iter().all(|held| held.1 != answer) {
                let around = self.held(which, since.saturating_sub(4), until + 4);
                return Err(format!(
                    "{how} of {:#x} from {began} (since {since}) to {until} gave\n  {answer:x?}, and in that time it meant\n  {held:x?},\n  and a little before and after\n  {around:x?}",
                    watched[which],
                ));
            }
            if answer.kind == 1 && self.frames.is_gone(answer.frame, until) {
                return Err(format!(
                    "{how} of {:#x} at {until} gave the frame {:#x}, which is gone",
                    watched[which], answer.frame
                ));
            }
            let own = self.held(which, began, until);
            let stale = u64::from(own.iter().all(|held| held.1 != answer));
            match from {
                From::Root => tally.walks += 1,
                From::Upper => {
                    tally.walks += 1;
                    tally.upper += 1;
                    tally.upper_stale += stale;
                }
                From::Translation => {
                    tally.translations += 1;
                    tally.translations_stale += stale;
                    tally.outlived += u64::from(seen.outlived);
                }
            }
            tally.raced += u64::from(own.len() > 1);
        }
        Ok(())
    }
}
