//! The walks beside the compiled library itself, while it runs. The writer asks, and keeps the log; who walks is either
//! - a second thread (`threads`): on x86-64, where another processor sees plain stores in their order; or
//! - a timer's interrupt of the writer (`interrupted`): on any processor, since a thread that is interrupted anywhere sees
//!   its own stores in the order of its code.

use crate::cache::Upper;
use crate::flaw::Flaw;
use crate::log::Tally;
use crate::memory::Shared;
use crate::onlooker::Onlooker;
use crate::scene::Scene;
use crate::shootdowns::Mailbox;
use crate::stepped::singles;
use crate::writer::Writer;
use model::Window;
use operations::due::due;
use operations::Operations;
use std::hint::spin_loop;
use std::sync::atomic::{fence, AtomicBool, AtomicPtr, AtomicU64, AtomicUsize, Ordering::SeqCst};
use std::thread;
use std::time::{Duration, Instant};

/// What the writer and the walks tell one another.
#[derive(Default)]
struct Between {
    /// Odd while an operation runs.
    clock: AtomicU64,
    /// Turns that fell into an operation.
    amid: AtomicU64,
    stop: AtomicBool,
    mailboxes: [Mailbox; 1],
}

impl Between {
    fn turn(&self, onlooker: &mut Onlooker, reads: u64) {
        if self.clock.load(SeqCst) % 2 == 1 {
            self.amid.fetch_add(1, SeqCst);
        }
        onlooker.turn(reads);
        if onlooker.is_full() {
            self.stop.store(true, SeqCst);
        }
    }

    /// Until the walks have no room for more, or it took too long: a timer may be slow, and a processor busy.
    fn write(&self, operation: &mut dyn FnMut() -> Result<(), String>) -> Result<(), String> {
        let end = Instant::now() + Duration::from_millis(500);
        while !self.stop.load(SeqCst) && Instant::now() < end {
            operation()?;
        }
        Ok(())
    }
}

/// One operation, as the compiled library does it.
fn operation(of: &dyn Operations, writer: &mut Writer, between: &Between) -> Result<(), String> {
    let clock = &between.clock;
    let began = clock.load(SeqCst);
    writer.tell(began);
    let request = writer.next();
    let judged = writer.scene.ledger.judge(&request, writer.memory.len).expect("our own pool");
    // SAFETY: that others read it meanwhile is what is tested.
    let bytes = unsafe { writer.memory.lent() };
    // No store of the operation is to be seen before the clock is.
    let begin = || {
        clock.fetch_add(1, SeqCst);
        fence(SeqCst);
    };
    let answer = if writer.flaw == Flaw::LinkThenClear {
        let due = due(Window { bytes, origin: writer.memory.origin }, &request);
        let writes = singles(writer.memory, &request, &due.writes, writer.flaw);
        begin();
        for (at, word) in writes {
            writer.memory.write(at, word);
            if word % 2 == 1 {
                // Long enough to be seen on a busy machine, too; a sleep would be woken by the interrupts, and begin again.
                let seen = Instant::now() + Duration::from_micros(20);
                while Instant::now() < seen {
                    spin_loop();
                }
            }
        }
        due.answer
    } else {
        begin();
        request.ask(of, bytes)
    };
    let state = clock.fetch_add(1, SeqCst).div_ceil(2);
    if answer != judged {
        return Err(format!("{request}: answered\n  {answer}, should be\n  {judged}"));
    }
    for (which, means) in writer.scene.means(&writer.sight.watched).into_iter().enumerate() {
        writer.log.note(state, which, means);
    }
    writer.note(&request, &answer, began);
    Ok(())
}

/// One pool; `beside` runs the writer, and lets the onlooker walk meanwhile.
fn run(
    of: &dyn Operations,
    seed: u64,
    room: usize,
    flaw: Flaw,
    beside: impl FnOnce(&mut Onlooker, &Between, &mut dyn FnMut() -> Result<(), String>) -> Result<(), String>,
) -> Result<Tally, String> {
    let (scene, sight, mut words) = Scene::new(of, seed);
    let memory = Shared::of(&mut words, scene.space().origin);
    let between = Between::default();
    let Between { clock, mailboxes, .. } = &between;
    let mut writer = Writer::new(scene, &sight, memory, mailboxes, flaw);
    let upper = if seed % 2 == 0 { Upper::All } else { Upper::Leading };
    let mut onlooker = Onlooker::new(&sight, memory, clock, &mailboxes[0], upper, seed, room).with(true, flaw);
    beside(&mut onlooker, &between, &mut || operation(of, &mut writer, &between))?;
    onlooker.finish();
    writer.log.judge(&sight.watched, &onlooker.seen, &mut writer.tally)?;
    writer.tally.add(onlooker.counts);
    writer.tally.amid = between.amid.load(SeqCst);
    Ok(writer.tally)
}

pub fn threads(of: &dyn Operations, seed: u64, room: usize, flaw: Flaw) -> Result<Tally, String> {
    run(of, seed, room, flaw, |onlooker, between, operation| {
        onlooker.quiet = 16;
        let began = Instant::now();
        let mut patient = || {
            // In turns the writer waits while three shootdowns are under way, as kernels do, and runs ahead.
            let end = Instant::now() + Duration::from_micros(50);
            while began.elapsed().as_millis() / 16 % 2 == 0 && between.mailboxes[0].is_full() && Instant::now() < end {
                thread::yield_now();
            }
            operation()
        };
        thread::scope(|scope| {
            scope.spawn(|| {
                while !between.stop.load(SeqCst) {
                    let clock = between.clock.load(SeqCst);
                    (0..64).for_each(|_| between.turn(onlooker, 64));
                    if between.clock.load(SeqCst) == clock {
                        // The writer has no processor: nothing is to be seen.
                        thread::yield_now();
                    }
                }
            });
            let outcome = between.write(&mut patient);
            between.stop.store(true, SeqCst);
            outcome
        })
    })
}

/// How often there were such rounds.
static ROUNDS: AtomicUsize = AtomicUsize::new(0);

/// What the interrupt looks for.
static WALKS: AtomicPtr<Interrupted> = AtomicPtr::new(std::ptr::null_mut());

struct Interrupted {
    /// As pointers, since the interrupt cannot borrow: they are there as long as `WALKS` says so.
    onlooker: *mut Onlooker<'static>,
    between: *const Between,
}

#[repr(C)]
struct Interval {
    seconds: i64,
    micros: i64,
}

extern "C" {
    fn signal(number: i32, handler: usize) -> usize;
    fn setitimer(which: i32, to: *const [Interval; 2], was: *mut [Interval; 2]) -> i32;
}

const SIGALRM: i32 = 14;
const ITIMER_REAL: i32 = 0;

extern "C" fn interrupt(_: i32) {
    // SAFETY: what it points to is there while it is not null, and nobody else walks with this onlooker meanwhile.
    if let Some(walks) = unsafe { WALKS.load(SeqCst).as_ref() } {
        unsafe { (*walks.between).turn(&mut *walks.onlooker, 24) };
    }
}

fn every(micros: i64) {
    let times = [(); 2].map(|()| Interval { seconds: 0, micros });
    // SAFETY: two times, and none asked for.
    assert_eq!(unsafe { setitimer(ITIMER_REAL, &times, std::ptr::null_mut()) }, 0, "there is a timer");
}

pub fn interrupted(of: &dyn Operations, seed: u64, room: usize, flaw: Flaw) -> Result<Tally, String> {
    run(of, seed, room, flaw, |onlooker, between, operation| {
        let mut walks = Interrupted { onlooker: std::ptr::from_mut(onlooker).cast(), between };
        WALKS.store(&mut walks, SeqCst);
        // SAFETY: the handler allocates nothing and takes no lock.
        assert_ne!(unsafe { signal(SIGALRM, interrupt as *const () as usize) }, usize::MAX, "there is a signal");
        // By turns few operations between two interrupts, and many: on a busy machine the shorter time may leave hardly any.
        every([10, 30][ROUNDS.fetch_add(1, SeqCst) % 2]);
        let outcome = between.write(operation);
        every(0);
        WALKS.store(std::ptr::null_mut(), SeqCst);
        outcome
    })
}
