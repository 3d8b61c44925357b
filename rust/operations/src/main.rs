//! operations: requests at random, held to what they should answer, write and mean; of the baselines and, with the feature
//! `library`, of the compiled library. TABLEPATH_SEED repeats a run, TABLEPATH_REQUESTS makes it longer, and
//! TABLEPATH_COVER shows what was asked how often. The last line counts the checks, not the requests.

use operations::baselines::{Checked, Raw};
use operations::cover::{Cover, Sort};
use operations::run::is_asking;
use operations::shrink::{shrink, Failure};
use operations::steps::Step;
use operations::{test, Operations};
use std::process::ExitCode;
use std::time::{SystemTime, UNIX_EPOCH};
use std::{env, panic, time::Instant};

const LEAST_REQUESTS: u64 = 200_000;

/// A number from the environment, if it is there; one that makes no sense stops the run.
fn number(name: &str) -> Option<u64> {
    let said = env::var(name).ok()?;
    let number = match said.strip_prefix("0x") {
        Some(digits) => u64::from_str_radix(digits, 16),
        None => said.parse(),
    };
    Some(number.unwrap_or_else(|_| panic!("{name} is no number: {said}")))
}

fn show(failure: &Failure) {
    println!("  {}", failure.setup);
    for step in &failure.steps {
        println!("  {step}");
        if let Step::Ask { request, from, to, .. } = step {
            if let Some(space) = request.space().filter(|space| *space != failure.setup.space()) {
                println!("    in {space}");
            }
            if (*from, *to) != (0, failure.setup.len) {
                println!("    over the bytes {from:#x} up to {to:#x} of the window");
            }
        }
    }
    println!("  {}", failure.trouble);
}

struct Test<'a> {
    name: &'a str,
    of: &'a dyn Operations,
    beside: Option<&'a dyn Operations>,
    sort: Sort,
    requests: u64,
}

impl Test<'_> {
    /// Two checks: that nothing was wrong, and that enough of everything was asked.
    fn run(&self, seed: u64) -> [bool; 2] {
        let Test { name, of, beside, sort, requests } = *self;
        let began = Instant::now();
        let mut cover = Cover::default();
        if let Some((scene, failure)) = test(of, beside, sort, seed, requests, &mut cover) {
            println!("operations: FAILED: {name}: seed {seed:#x}, scene {scene}, request {}:", cover.asked);
            show(&shrink(of, beside, failure));
            return [false, false];
        }
        println!(
            "operations: {name}: {} requests as they should be ({:.1} s)",
            cover.asked,
            began.elapsed().as_secs_f64()
        );
        let lines = cover.lines(sort);
        let rarest = lines.iter().min_by_key(|(_, least, count)| count * 1000 / least).expect("there are lines");
        println!(
            "operations: {name}: {} kinds of it, the rarest for its kind: {}, {}",
            lines.len(),
            rarest.0,
            rarest.2
        );
        if env::var_os("TABLEPATH_COVER").is_some() {
            lines.iter().for_each(|(what, least, count)| println!("  {count:7} {what} ({least} of 100000 needed)"));
        }
        let low: Vec<_> = lines.iter().filter(|(_, least, count)| count * 100_000 < least * requests).collect();
        for (what, least, count) in &low {
            println!("operations: FAILED: {name}: {what}: {count} of {requests} is less than {least} of 100000");
        }
        [true, low.is_empty()]
    }
}

fn main() -> ExitCode {
    let time = || SystemTime::now().duration_since(UNIX_EPOCH).map_or(0, |since| since.as_nanos() as u64);
    let seed = number("TABLEPATH_SEED").unwrap_or_else(time);
    let requests = number("TABLEPATH_REQUESTS").unwrap_or(0).max(LEAST_REQUESTS);
    println!("operations: seed {seed:#x} (TABLEPATH_SEED={seed:#x} repeats this run), {requests} requests");
    // Where a request makes one stop, that is shown with the steps that led to it, and not again for each attempt.
    let says = panic::take_hook();
    panic::set_hook(Box::new(move |info| {
        if !is_asking() {
            says(info);
        }
    }));

    let mut tests = vec![
        Test { name: "checked", of: &Checked, beside: None, sort: Sort::Sound, requests },
        Test { name: "checked, damaged", of: &Checked, beside: None, sort: Sort::Damaged, requests: requests / 2 },
        Test { name: "raw beside checked", of: &Raw, beside: Some(&Checked), sort: Sort::Valid, requests },
    ];
    tests.extend(library(requests));
    let checks: Vec<bool> = tests.iter().flat_map(|test| test.run(seed)).collect();
    let failed = checks.iter().filter(|passed| !**passed).count();
    println!("{} passed, {failed} failed", checks.len() - failed);
    ExitCode::from(u8::from(failed > 0))
}

#[cfg(not(feature = "library"))]
fn library(_: u64) -> Vec<Test<'static>> {
    vec![]
}

#[cfg(feature = "library")]
fn library(requests: u64) -> Vec<Test<'static>> {
    use operations::library::Library;
    let beside: Option<&dyn Operations> = Some(&Checked);
    vec![
        Test { name: "library beside checked", of: &Library, beside, sort: Sort::Sound, requests },
        Test { name: "library beside checked, damaged", of: &Library, beside, sort: Sort::Damaged, requests },
    ]
}
