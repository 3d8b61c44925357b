//! beside: processors with caches walk beside a writer, one entry at a time. An answer of a walk from the root has to be what
//! its address meant at a moment of the walk; one from a cache, at a moment since the last shootdown began that is done and told
//! that address; and none may give a frame that was unmapped and reported. TABLEPATH_SEED repeats a run.

mod alive;
mod cache;
mod flaw;
mod frames;
mod log;
mod memory;
mod onlooker;
mod scene;
mod shootdowns;
mod stepped;
mod walk;
mod writer;

use flaw::Flaw;
use log::Tally;
use operations::random::Random;
use operations::Operations;
use std::process::ExitCode;
use std::time::{Instant, SystemTime, UNIX_EPOCH};

#[cfg(feature = "library")]
const OF: (&str, &dyn Operations) = ("the compiled library", &operations::library::Library);
#[cfg(not(feature = "library"))]
const OF: (&str, &dyn Operations) = ("the checked baseline", &operations::baselines::Checked);

/// One after the other, each in another pool, until one is wrong.
fn rounds(seed: u64, count: u64, mut round: impl FnMut(u64) -> Result<Tally, String>) -> Result<Tally, String> {
    let mut tally = Tally::default();
    let mut random = Random::new(seed, 2);
    for _ in 0..count {
        tally.add(round(random.word())?);
    }
    Ok(tally)
}

fn say(name: &str, tally: &Tally, seconds: f64) {
    let Tally { operations, walks, raced, amid, shootdowns, three, overtaken, .. } = tally;
    let Tally { upper, upper_stale, translations, translations_stale, outlived, .. } = tally;
    let Tally { invlpgs, reports, batches, gone, again, .. } = tally;
    println!("beside: {name}: {operations} operations, {walks} walks, each as it may be ({seconds:.1} s)");
    println!(
        "beside: {name}: {raced} walks beside a change of their address, {amid} turns in the midst of an operation"
    );
    println!("beside: {name}: {shootdowns} shootdowns, {three} with two others under way, {overtaken} done before an older one, all by {invlpgs} INVLPGs of single pages");
    println!("beside: {name}: {reports} reports released tables, {batches} reports were of several shootdowns; {gone} frames gone, {again} mapped again");
    println!("beside: {name}: {upper} walks from upper entries, {upper_stale} of those stale; {translations} translations, {translations_stale} stale, {outlived} kept over a shootdown");
}

/// All that caches can do has happened.
fn is_cached(tally: &Tally) -> bool {
    let Tally { upper_stale, translations_stale, outlived, three, overtaken, batches, again, .. } = *tally;
    [upper_stale, translations_stale, outlived, three, overtaken, batches, again].iter().all(|count| *count > 0)
}

fn sound(name: &str, caches: bool, run: impl FnOnce() -> Result<Tally, String>) -> bool {
    let began = Instant::now();
    match run() {
        Ok(tally) => {
            say(name, &tally, began.elapsed().as_secs_f64());
            let enough = tally.raced > 0 && tally.amid > 0 && tally.reports > 0 && (!caches || is_cached(&tally));
            if !enough {
                println!("beside: FAILED: {name}: too little happened beside the walks");
            }
            enough
        }
        Err(trouble) => {
            println!("beside: FAILED: {name}: {trouble}");
            false
        }
    }
}

/// A negative control: it has to be found out.
fn wrong(name: &str, flaw: Flaw, run: impl FnOnce() -> Result<Tally, String>) -> bool {
    match run() {
        Err(trouble) if !trouble.contains(flaw.words()) => {
            println!("beside: FAILED: {name} was found out by something else: {trouble}");
            false
        }
        Err(trouble) => {
            println!("beside: found out: {name}: {}", trouble.lines().next().unwrap_or(""));
            true
        }
        Ok(tally) => {
            println!("beside: FAILED: {name} was not found out in {} walks", tally.walks);
            false
        }
    }
}

/// Beside the library's own code, as it runs.
fn beside_the_code(of: &dyn Operations, seed: u64) -> Vec<bool> {
    let mut checks = vec![];
    let mut both =
        |name: &str, count: u64, room: usize, run: fn(&dyn Operations, u64, usize, Flaw) -> Result<Tally, String>| {
            let some = |count, flaw| rounds(seed, count, |seed| run(of, seed, room, flaw));
            checks.push(sound(name, true, || some(count, Flaw::None)));
            for flaw in [Flaw::LinkThenClear].into_iter().chain(Flaw::OF_REPORTS) {
                checks.push(wrong(&format!("{flaw:?}, {name}"), flaw, || some(count, flaw)));
            }
        };
    both("in interrupts of the writer", 12, 100_000, alive::interrupted);
    if cfg!(target_arch = "x86_64") || std::env::var_os("TABLEPATH_THREADS").is_some() {
        both("a second thread", 10, 400_000, alive::threads);
    } else {
        println!("beside: no second thread: another processor of this machine may see plain stores out of order, as no x86-64 does");
    }
    checks
}

fn main() -> ExitCode {
    let said = std::env::var("TABLEPATH_SEED").ok();
    let seed = match said.as_deref().map(|said| (said, said.strip_prefix("0x"))) {
        Some((_, Some(digits))) => u64::from_str_radix(digits, 16).expect("TABLEPATH_SEED is a number"),
        Some((digits, None)) => digits.parse().expect("TABLEPATH_SEED is a number"),
        None => SystemTime::now().duration_since(UNIX_EPOCH).map_or(0, |since| since.as_nanos() as u64),
    };
    let (name, of) = OF;
    println!("beside: seed {seed:#x} (TABLEPATH_SEED={seed:#x} repeats this run), {name}");
    let mut checks = vec![];
    let steps =
        |count, operations, caches, flaw| rounds(seed, count, |seed| stepped::run(of, seed, operations, caches, flaw));
    checks.push(sound("stepped between single writes", false, || steps(200, 400, false, Flaw::None)));
    checks.push(sound("stepped between single writes, with caches", true, || steps(200, 400, true, Flaw::None)));
    let of_writes =
        [Flaw::LinkThenClear, Flaw::UnlinkThenClear, Flaw::Halves, Flaw::ProtectByClearing, Flaw::ToldBeforeWalksEnd];
    for flaw in of_writes {
        checks.push(wrong(&format!("{flaw:?}"), flaw, || steps(20, 400, false, flaw)));
    }
    for flaw in Flaw::OF_REPORTS.into_iter().chain([Flaw::OlderNotDone]) {
        checks.push(wrong(&format!("{flaw:?}"), flaw, || steps(20, 400, true, flaw)));
    }
    if cfg!(feature = "library") {
        checks.extend(beside_the_code(of, seed));
    }
    let failed = checks.iter().filter(|passed| !**passed).count();
    println!("{} passed, {failed} failed", checks.len() - failed);
    ExitCode::from(u8::from(failed > 0))
}
