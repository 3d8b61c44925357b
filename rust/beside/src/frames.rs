//! Which frames nobody may be given any more: no page of theirs is mapped, and of each that was, the unmap is reported.

use std::collections::HashMap;

#[derive(Default)]
pub struct Frames {
    frames: HashMap<u64, Frame>,
    /// Those that were gone last, with their sizes: they are mapped again.
    last: Vec<(u64, u64)>,
}

#[derive(Default)]
struct Frame {
    size: u64,
    /// Pages of it that are mapped, or unmapped and not reported.
    pages: u64,
    /// From when till when it was gone.
    gone: Vec<(u64, u64)>,
}

impl Frames {
    /// A map of it begins at this clock.
    pub fn mapped(&mut self, frame: u64, size: u64, clock: u64) {
        let entry = self.frames.entry(frame).or_default();
        if let Some(last) = entry.gone.last_mut().filter(|_| entry.pages == 0) {
            last.1 = clock;
        }
        entry.pages += 1;
        entry.size = size;
    }

    /// The unmap of a page of it is reported at this clock; answers whether it is gone with that.
    pub fn reported(&mut self, frame: u64, clock: u64) -> bool {
        let entry = self.frames.get_mut(&frame).expect("it was mapped");
        entry.pages -= 1;
        if entry.pages == 0 {
            entry.gone.push((clock, u64::MAX));
            if self.last.len() == 16 {
                self.last.remove(0);
            }
            self.last.push((frame, entry.size));
        }
        entry.pages == 0
    }

    /// One that is gone, to be used again.
    pub fn again(&self, size: u64) -> Option<u64> {
        self.last.iter().find(|last| last.1 == size && self.frames[&last.0].pages == 0).map(|last| last.0)
    }

    /// Was it gone at this clock? What is seen at the clock of the report may have come before that.
    pub fn is_gone(&self, frame: u64, clock: u64) -> bool {
        let Some(entry) = self.frames.get(&frame) else { return false };
        entry.gone.iter().rev().any(|(from, to)| *from < clock && clock <= *to)
    }
}
