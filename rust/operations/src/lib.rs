//! The operations on page tables, asked at random, and held to what they should answer and write.
//!
//! `Operations` is whatever has them: the baselines and, with the feature `library`, the compiled library. Two judges that
//! share nothing with those: `ledger`, a plain list of mappings, which never looks at bytes; and `due`, which works out the
//! answer and the writes from any bytes, over the manual's walk in `model`. `audit` reads book and tables from the bytes.

mod ask;
pub mod audit;
pub mod baselines;
mod chance;
pub mod cover;
mod damage;
pub mod due;
pub mod layout;
pub mod ledger;
#[cfg(feature = "library")]
pub mod library;
#[path = "../../walks/src/random.rs"]
pub mod random;
pub mod reasons;
pub mod run;
pub mod shrink;
pub mod space;
pub mod steps;

pub use ask::{Answer, Request};
pub use space::Space;

use chance::Scene;
use cover::{Cover, Sort};
use run::Run;
use shrink::Failure;
use steps::Step;

/// A request that needs nothing is answered with zeros; 0 is the reason of what was done.
macro_rules! answers {
    ($($(#[$says:meta])* $name:ident { $($field:ident),* })*) => { $(
        $(#[$says])*
        #[derive(Clone, Copy, PartialEq, Eq, Debug, Default)]
        pub struct $name { $(pub $field: u64),* }
    )* };
}

answers! {
    Created { reason, root }
    /// `tables`: how many were made.
    Mapped { reason, tables }
    /// `aside`: how many tables were set aside; `ticket`: that of the moment after it.
    Unmapped { reason, frame, size, aside, ticket }
    Protected { reason, frame, size, ticket }
    Told { reason, released }
    /// `kind`: 0 nothing, 1 a page, 2 outside, 5 no address.
    LookedUp { kind, base, size, frame, rights }
}

/// Rights: bit 0 writable, bit 1 user, bit 2 not executable.
pub trait Operations {
    fn create(&self, mem: &mut [u8], origin: u64, pool: u64, pages: u64) -> Created;
    fn map(&self, mem: &mut [u8], space: Space, base: u64, frame: u64, size: u64, rights: u64) -> Mapped;
    fn unmap(&self, mem: &mut [u8], space: Space, base: u64) -> Unmapped;
    fn protect(&self, mem: &mut [u8], space: Space, base: u64, rights: u64) -> Protected;
    fn told(&self, mem: &mut [u8], space: Space, ticket: u64) -> Told;
    fn look_up(&self, mem: &[u8], origin: u64, root: u64, va: u64) -> LookedUp;

    /// Must it be spared what it does not refuse?
    fn is_raw(&self) -> bool {
        false
    }
}

/// The reasons, by number; 0 is no refusal.
// tools/reasons: names (of include/reasons.txt)
pub const REASONS: [&str; 28] = [
    "done",
    "Size",
    "BaseUnaligned",
    "FrameUnaligned",
    "BaseRange",
    "FrameRange",
    "FrameInPool",
    "Overlap",
    "NoRoom",
    "NothingStarts",
    "Stray",
    "BadList",
    "OriginUnaligned",
    "LengthUnaligned",
    "PoolUnaligned",
    "RootUnaligned",
    "PoolLarge",
    "PoolSmall",
    "PoolOutside",
    "BadRoot",
    "NoBook",
    "OtherBook",
    "BadBook",
    "UnknownTicket",
    "SpentTickets",
    "Rights",
    "PointerUnaligned",
    "WriteExecute",
];
// tools/reasons: end

/// Asks so many requests, in one scene after the other, or until something is wrong: then the scene's number, and its steps.
/// The scenes depend on the seed and on what is answered.
pub fn test(
    of: &dyn Operations,
    beside: Option<&dyn Operations>,
    sort: Sort,
    seed: u64,
    requests: u64,
    cover: &mut Cover,
) -> Option<(u64, Failure)> {
    let damaged = sort == Sort::Damaged;
    for number in 0.. {
        let mut scene = Scene::new(seed, number);
        let mut steps: Vec<Step> = vec![];
        let setup = scene.setup;
        let failure = |steps, trouble| Some((number, Failure { setup, damaged, steps, trouble }));
        let mut run = match Run::begin(of, beside, setup, false) {
            Ok(run) => run,
            Err(trouble) => return failure(steps, trouble),
        };
        if damaged {
            run.damage();
        }
        // First there have to be tables that can be damaged.
        let sound = if damaged { scene.steps / 4 } else { scene.steps };
        for step in 0..scene.steps {
            if cover.asked >= requests {
                return None;
            }
            let step = if step < sound { scene.next(&run.hints) } else { scene.next_damaged(&run) };
            steps.push(step);
            if let Err(trouble) = run.step(&step, cover) {
                return failure(steps, trouble);
            }
        }
        if let Err(trouble) = run.end() {
            return failure(steps, trouble);
        }
    }
    unreachable!("scenes do not run out")
}
