//! Rounds: in each the three do a scene's parts in turn, over the same bytes, and each round another one begins.

use crate::racers::{Checked, Library, Racer, Raw};
use crate::scenes::{ticket, Part, Scene, Work, FRAME, RIGHTS};
use crate::table::{Row, Times};
use operations::Space;
use std::hint::black_box;
use std::time::{Duration, Instant};

/// Rounds before any counts.
const WARM: usize = 3;
const LEAST_ROUNDS: usize = 9;
/// Larger windows are not copied to be compared; smaller ones of the same kind are.
const COMPARED: usize = 1 << 25;

/// The scene's parts, by each of the three on a copy: they must leave the same bytes.
pub fn agree(scene: &Scene, mem: &[u8]) -> Result<(), String> {
    if mem.len() > COMPARED {
        return Ok(());
    }
    let [mut left, mut other] = [mem.to_vec(), mem.to_vec()];
    all_parts(&Checked, scene, &mut left);
    all_parts(&Library, scene, &mut other);
    if left != other {
        return Err("the library leaves other bytes than the checked baseline".to_string());
    }
    other.copy_from_slice(mem);
    all_parts(&Raw, scene, &mut other);
    if left != other {
        return Err("the raw baseline leaves other bytes than the checked one".to_string());
    }
    Ok(())
}

fn all_parts<R: Racer>(of: &R, scene: &Scene, mem: &mut [u8]) {
    scene.parts.iter().for_each(|part| {
        part.prepare(mem);
        timed(of, mem, &scene.space, part);
    });
}

/// As many rounds as fit into the time, and what they took.
pub fn race(scene: &Scene, mem: &mut [u8], time: Duration) -> Vec<Row> {
    let mut laps: Vec<[Vec<f64>; 3]> = scene.parts.iter().map(|_| Default::default()).collect();
    let empty = empty_lap();
    let began = Instant::now();
    let mut round = 0;
    while round < WARM + LEAST_ROUNDS || began.elapsed() < time {
        for turn in 0..3 {
            let who = (round + turn) % 3;
            for (part, laps) in scene.parts.iter().zip(&mut laps) {
                part.prepare(mem);
                let took = match who {
                    0 => timed(&Library, mem, &scene.space, part),
                    1 => timed(&Checked, mem, &scene.space, part),
                    _ => timed(&Raw, mem, &scene.space, part),
                };
                if round >= WARM {
                    laps[who].push((took.as_nanos() as f64 - empty) / part.operations());
                }
            }
        }
        round += 1;
    }
    let rows = scene.parts.iter().zip(laps).filter(|(part, _)| !part.row.is_empty());
    rows.map(|(part, laps)| Row { name: part.row.clone(), times: laps.map(Times::of) }).collect()
}

/// What it takes to ask for the time twice.
fn empty_lap() -> f64 {
    let lap = || Instant::now().elapsed().as_nanos() as f64;
    Times::of((0..10_001).map(|_| lap()).collect()).median
}

/// Does the part, and says how long it took. Nothing may be refused but what is expected to be.
fn timed<R: Racer>(of: &R, mem: &mut [u8], space: &Space, part: &Part) -> Duration {
    let began = Instant::now();
    let mut reasons = 0;
    for _ in 0..part.repeats {
        reasons |= match &part.work {
            Work::LookUp => each(part, |va| of.look_up(mem, space, va)),
            Work::Map(size) => each(part, |va| of.map(mem, space, va, FRAME, *size, RIGHTS)),
            Work::Unmap => each(part, |va| of.unmap(mem, space, va).0),
            Work::Protect => each(part, |va| of.protect(mem, space, va, RIGHTS)),
            Work::UnmapMap => each(part, |va| of.unmap(mem, space, va).0 | of.map(mem, space, va, FRAME, 4096, RIGHTS)),
            Work::TableTurn => each(part, |va| {
                let mapped = of.map(mem, space, va, FRAME, 4096, RIGHTS);
                let (gone, ticket) = of.unmap(mem, space, va);
                mapped | gone | of.told(mem, space, ticket)
            }),
            Work::Told => of.told(mem, space, ticket(mem, space)),
            Work::Release(spaces, pages) => {
                spaces.iter().fold(0, |reasons, space| reasons | of.told(mem, space, *pages))
            }
        };
    }
    let took = began.elapsed();
    assert_eq!(reasons != 0, part.refused, "{}: {reasons}", part.row);
    took
}

#[inline(always)]
fn each(part: &Part, mut one: impl FnMut(u64) -> u64) -> u64 {
    part.at.iter().fold(0, |reasons, va| reasons | one(black_box(*va)))
}
