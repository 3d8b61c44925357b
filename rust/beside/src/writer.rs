//! What the writer does besides its operations: it begins shootdowns, reports them once they are done, and keeps the log.

use crate::flaw::Flaw;
use crate::log::{Log, Tally};
use crate::memory::Shared;
use crate::scene::{Scene, Sight};
use crate::shootdowns::{Mailbox, Shootdowns};
use operations::{Answer, Request};

pub struct Writer<'a> {
    pub scene: Scene,
    pub sight: &'a Sight,
    pub memory: Shared,
    pub log: Log,
    pub tally: Tally,
    pub flaw: Flaw,
    shootdowns: Shootdowns<'a>,
}

impl<'a> Writer<'a> {
    pub fn new(scene: Scene, sight: &'a Sight, memory: Shared, mailboxes: &'a [Mailbox], flaw: Flaw) -> Writer<'a> {
        let log = Log::new(&scene.means(&sight.watched));
        let shootdowns = Shootdowns::new(mailboxes, flaw);
        Writer { scene, sight, memory, log, tally: Tally::default(), flaw, shootdowns }
    }

    /// Between two operations: a shootdown may begin, and others are found to be done.
    pub fn tell(&mut self, clock: u64) {
        let ticket = self.scene.ticket();
        self.shootdowns.collect(clock, ticket);
        if self.scene.random.chance(1, 4) {
            self.shootdowns.begin(&mut self.scene.random, clock, ticket, &mut self.tally);
        }
    }

    /// A report, late, of one shootdown or of several; or another operation.
    pub fn next(&mut self) -> Request {
        let often = if self.scene.is_dry() { 3 } else { 1 };
        if self.scene.random.chance(often, 8) {
            if let Some(ticket) = self.shootdowns.ticket(&mut self.scene.random) {
                let later = self.flaw == Flaw::TicketOfLaterCalls;
                let ticket = if later { self.scene.ticket() } else { ticket };
                return Request::Told { space: self.scene.space(), ticket };
            }
        }
        self.scene.next(&self.log.frames)
    }

    fn changed(&mut self, base: u64, size: u64) {
        let page = self.sight.pages.iter().position(|page| *page == (base, size));
        self.shootdowns.changed(page.expect("a page of the scene"));
    }

    /// What was answered to an operation that began at this clock.
    pub fn note(&mut self, request: &Request, answer: &Answer, clock: u64) {
        self.tally.operations += 1;
        if answer.reason() != 0 {
            return;
        }
        match (*request, *answer) {
            (Request::Map { frame, size, .. }, _) => {
                self.tally.again += u64::from(self.log.frames.is_gone(frame, clock + 1));
                self.log.frames.mapped(frame, size, clock);
            }
            (Request::Unmap { base, .. }, Answer::Unmapped(gone)) => {
                self.changed(base, gone.size);
                if self.flaw == Flaw::FrameBeforeReport {
                    self.log.frames.reported(gone.frame, clock + 2);
                } else {
                    self.shootdowns.unmapped(gone.frame);
                }
            }
            (Request::Protect { base, .. }, Answer::Protected(same)) => self.changed(base, same.size),
            (Request::Told { ticket, .. }, Answer::Told(told)) => self.reported(ticket, told.released, clock),
            _ => {}
        }
    }

    /// The pages that were released are anyone's, and the frames that were unmapped are.
    fn reported(&mut self, ticket: u64, released: u64, clock: u64) {
        self.tally.reports += u64::from(released > 0);
        self.scene.spoil(self.memory, released);
        let covered = self.shootdowns.reported(ticket);
        self.tally.batches += u64::from(covered.len() > 1);
        for shootdown in covered {
            self.log.report(clock, shootdown.began, self.sight.told(shootdown.pages));
            for frame in shootdown.frames {
                self.tally.gone += u64::from(self.log.frames.reported(frame, clock));
            }
        }
    }
}
