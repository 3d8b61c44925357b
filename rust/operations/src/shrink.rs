//! The shortest sequence of steps that still shows what is wrong, in the smallest pool.

use crate::cover::Cover;
use crate::run::{Run, Trouble};
use crate::steps::{Setup, Step};
use crate::{Operations, Request};

/// A scene in which something is wrong: it shows at the last step.
#[derive(Clone)]
pub struct Failure {
    pub setup: Setup,
    /// Is the ledger out from the start, as where bytes are damaged?
    pub damaged: bool,
    pub steps: Vec<Step>,
    pub trouble: Trouble,
}

struct Shrink<'a> {
    of: &'a dyn Operations,
    beside: Option<&'a dyn Operations>,
    best: Failure,
}

/// Makes the failure smaller for as long as something is still wrong, whatever it is.
pub fn shrink(of: &dyn Operations, beside: Option<&dyn Operations>, found: Failure) -> Failure {
    let mut shrink = Shrink { of, beside, best: found };
    // With every check it may show earlier; one that does not show again is left as it was found.
    let (setup, steps) = (shrink.best.setup, shrink.best.steps.clone());
    if !shrink.attempt(setup, steps) {
        return shrink.best;
    }
    while shrink.pages() | shrink.drop_steps() | shrink.tickets() {}
    shrink.best
}

impl Shrink<'_> {
    /// Plays the steps, with every check. Where something is wrong, they are the best up to there.
    fn attempt(&mut self, setup: Setup, mut steps: Vec<Step>) -> bool {
        let trouble = match Run::begin(self.of, self.beside, setup, true) {
            Err(trouble) => Some((0, trouble)),
            Ok(mut run) => {
                if self.best.damaged {
                    run.damage();
                }
                let mut cover = Cover::default();
                (1..).zip(&steps).find_map(|(number, step)| Some((number, run.step(step, &mut cover).err()?)))
            }
        };
        let Some((played, trouble)) = trouble else { return false };
        steps.truncate(played);
        self.best = Failure { setup, steps, trouble, ..self.best };
        true
    }

    /// Many steps at once, and then fewer.
    fn drop_steps(&mut self) -> bool {
        let before = self.best.steps.len();
        let mut chunk = before;
        while chunk > 0 {
            let mut end = self.best.steps.len();
            while end > 0 {
                let start = end.saturating_sub(chunk);
                let mut steps = self.best.steps.clone();
                steps.drain(start..end);
                self.attempt(self.best.setup, steps);
                end = start.min(self.best.steps.len());
            }
            chunk /= 2;
        }
        self.best.steps.len() < before
    }

    /// A pool of fewer pages: what was asked of the old one is asked of it.
    fn pages(&mut self) -> bool {
        let old = self.best.setup;
        for pages in 3..old.pages.min(40) {
            let setup = Setup { pages, ..old };
            let mut steps = self.best.steps.clone();
            for step in &mut steps {
                if let Step::Ask {
                    request:
                        Request::Map { space, .. }
                        | Request::Unmap { space, .. }
                        | Request::Protect { space, .. }
                        | Request::Told { space, .. },
                    ..
                } = step
                {
                    if *space == old.space() {
                        *space = setup.space();
                    }
                }
            }
            if self.attempt(setup, steps) {
                return true;
            }
        }
        false
    }

    /// Lower tickets, which fewer steps hand out.
    fn tickets(&mut self) -> bool {
        let mut lower = false;
        for number in 0..self.best.steps.len() {
            for to in 1..6 {
                let mut steps = self.best.steps.clone();
                let Some(Step::Ask { request: Request::Told { ticket, .. }, .. }) = steps.get_mut(number) else {
                    break;
                };
                if to >= *ticket {
                    break;
                }
                *ticket = to;
                if self.attempt(self.best.setup, steps) {
                    lower = true;
                    break;
                }
            }
        }
        lower
    }
}
