//! Medians over rounds in which both sides take turns, so that a slow moment hits both.

use crate::inputs::Division;
use std::time::{Duration, Instant};

pub const ROUNDS: usize = 15;

/// Long enough that the clock's own steps don't show.
const ROUND: Duration = Duration::from_millis(2);

/// Nanoseconds a call.
pub struct Pair {
    pub archive: f64,
    pub plain: f64,
}

pub fn nanoseconds_each(
    divisions: &[Division],
    mut archive: impl FnMut(&Division),
    mut plain: impl FnMut(&Division),
) -> Pair {
    let archive_turns = turns_in_a_round(divisions, &mut archive);
    let plain_turns = turns_in_a_round(divisions, &mut plain);
    let mut archive_times = Vec::with_capacity(ROUNDS);
    let mut plain_times = Vec::with_capacity(ROUNDS);
    for _ in 0..ROUNDS {
        archive_times.push(time(divisions, archive_turns, &mut archive));
        plain_times.push(time(divisions, plain_turns, &mut plain));
    }
    Pair {
        archive: median(archive_times),
        plain: median(plain_times),
    }
}

/// How often all divisions fit into a round, found by doubling; this warms both sides up too.
fn turns_in_a_round(divisions: &[Division], call: &mut impl FnMut(&Division)) -> u32 {
    let mut turns = 1;
    loop {
        let start = Instant::now();
        run(divisions, turns, call);
        if start.elapsed() >= ROUND {
            return turns;
        }
        turns *= 2;
    }
}

fn time(divisions: &[Division], turns: u32, call: &mut impl FnMut(&Division)) -> f64 {
    let start = Instant::now();
    run(divisions, turns, call);
    let calls = f64::from(turns) * divisions.len() as f64;
    start.elapsed().as_secs_f64() * 1e9 / calls
}

fn run(divisions: &[Division], turns: u32, call: &mut impl FnMut(&Division)) {
    for _ in 0..turns {
        divisions.iter().for_each(&mut *call);
    }
}

fn median(mut times: Vec<f64>) -> f64 {
    times.sort_by(f64::total_cmp);
    times[times.len() / 2]
}
