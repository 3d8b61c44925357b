//! walks: the compiled library's look-up against the model, on random (tables, address) pairs.
//! TABLEPATH_SEED repeats a run, TABLEPATH_PAIRS makes it longer. The last line counts the checks, not the pairs.

use std::process::ExitCode;
use std::time::{SystemTime, UNIX_EPOCH};
use std::{env, time::Instant};
use walks::case::LookedUp;
use walks::cover::{Cover, Line};
use walks::{compare, library, shrink};

const LEAST_PAIRS: u64 = 1_000_000;
const PAIRS: u64 = 10_000_000;

/// A number from the environment, if it is there; one that makes no sense stops the run.
fn number(name: &str) -> Option<u64> {
    let said = env::var(name).ok()?;
    let number = match said.strip_prefix("0x") {
        Some(digits) => u64::from_str_radix(digits, 16),
        None => said.parse(),
    };
    Some(number.unwrap_or_else(|_| panic!("{name} is no number: {said}")))
}

/// Prints the counts of one kind, and says whether each is as high as it has to be.
fn enough(pairs: u64, what: &str, lines: &[Line]) -> bool {
    let said: Vec<String> = lines.iter().map(|line| format!("{} {}", line.name, line.count)).collect();
    println!("walks: {what}: {}", said.join("; "));
    let low: Vec<&Line> = lines.iter().filter(|line| line.count < line.least * (pairs / 1_000_000)).collect();
    for line in &low {
        println!("walks: FAILED: {what}: {}: {} is less than {} in a million", line.name, line.count, line.least);
    }
    low.is_empty()
}

fn main() -> ExitCode {
    let time = || SystemTime::now().duration_since(UNIX_EPOCH).map_or(0, |since| since.as_nanos() as u64);
    let seed = number("TABLEPATH_SEED").unwrap_or_else(time);
    let pairs = number("TABLEPATH_PAIRS").unwrap_or(PAIRS).max(LEAST_PAIRS);
    println!("walks: seed {seed:#x} (TABLEPATH_SEED={seed:#x} repeats this run), {pairs} pairs");

    let began = Instant::now();
    let mut cover = Cover::default();
    let difference = compare(library::look_up, seed, pairs, &mut cover);
    let seconds = began.elapsed().as_secs_f64();
    let mut checks = vec![difference.is_none()];
    if let Some(difference) = difference {
        let wrong = |case: &walks::case::Case| library::look_up(case) != LookedUp::from(case.walk().answer);
        let case = shrink::shrink(difference.case, wrong);
        println!(
            "walks: FAILED: seed {seed:#x}, pair {}, scene {}: the answers differ. The smallest case:",
            cover.pairs, difference.scene
        );
        print!("{case}");
        println!("  by the manual   {}", LookedUp::from(case.walk().answer));
        println!("  by the library  {}", library::look_up(&case));
    } else {
        println!("walks: {} answers, every field of each as the manual has it ({seconds:.1} s)", cover.pairs);
        checks.push(enough(pairs, "ends", &cover.ends()));
        checks.push(enough(pairs, "rights", &cover.rights()));
        checks.push(enough(pairs, "bits flipped", &cover.flips()));
        checks.push(enough(pairs, "windows", &cover.windows()));
    }
    let failed = checks.iter().filter(|passed| !**passed).count();
    println!("{} passed, {failed} failed", checks.len() - failed);
    ExitCode::from(u8::from(failed > 0))
}
