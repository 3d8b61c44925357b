//! bench: the compiled library beside the two baselines, in one process, on the same bytes, in turns. It prints one table, as
//! Markdown: medians in nanoseconds for one operation. Each scene is first run by each of them on a copy of its own, where all
//! three must leave the same bytes; that they answer as they should is tested in `operations`.
//! TABLEPATH_BRIEF makes it short, to see that it runs.

mod race;
mod racers;
mod scenes;
mod table;

use race::{agree, race};
use std::process::{Command, ExitCode};
use std::time::{Duration, Instant};
use std::{env, fs};

/// How long each scene is raced.
const EACH: Duration = Duration::from_millis(600);
const EACH_BRIEF: Duration = Duration::from_millis(2);

/// What the machine calls its processor.
fn processor() -> String {
    let after = |text: &str| -> Option<String> {
        let line = text.lines().find(|line| line.to_lowercase().starts_with("model name"))?;
        Some(line.split_once(':')?.1.trim().to_string())
    };
    let listed = || String::from_utf8(Command::new("lscpu").output().ok()?.stdout).ok();
    let name = fs::read_to_string("/proc/cpuinfo").ok().and_then(|text| after(&text));
    let name = name.or_else(|| after(&listed()?)).unwrap_or_else(|| "processor without a name".to_string());
    format!("{name}, {}", env::consts::ARCH)
}

fn main() -> ExitCode {
    let brief = env::var_os("TABLEPATH_BRIEF").is_some();
    let began = Instant::now();
    let mut rows = vec![];
    for scene in scenes::all() {
        let mut mem = scene.made();
        if let Err(trouble) = agree(&scene, &mem) {
            println!("bench: {}: {trouble}", scene.name);
            return ExitCode::FAILURE;
        }
        rows.extend(race(&scene, &mut mem, if brief { EACH_BRIEF } else { EACH }));
    }
    println!("Processor: {}. Nanoseconds for one operation, medians.\n", processor());
    table::print(&rows);
    println!("\nTimed in {:.0} s.", began.elapsed().as_secs_f64());
    ExitCode::SUCCESS
}
