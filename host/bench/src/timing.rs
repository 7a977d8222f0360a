//! Times of several ways to do the same work, taken in turns.

use std::time::{Duration, Instant};

/// A turn lasts at least this long, so that the clock's own cost doesn't count.
const TURN: Duration = Duration::from_micros(100);
/// The number of turns; the best of them is taken, which is the one that was disturbed least.
const TURNS: usize = 60;

/// The best time of one run of each way, in nanoseconds.
///
/// The ways take turns, so that a slow moment of the machine hits each of them.
pub fn best<const N: usize>(mut ways: [&mut dyn FnMut(); N]) -> [f64; N] {
    let runs = ways.each_mut().map(|way| runs_in_a_turn(*way));
    let mut best = [f64::INFINITY; N];
    for _ in 0..TURNS {
        for ((way, &runs), best) in ways.iter_mut().zip(&runs).zip(&mut best) {
            *best = best.min(time(*way, runs) / runs as f64);
        }
    }
    best
}

/// How many runs last as long as a turn.
fn runs_in_a_turn(way: &mut dyn FnMut()) -> u32 {
    let mut runs = 1;
    while time(way, runs) < TURN.as_nanos() as f64 {
        runs *= 2;
    }
    runs
}

fn time(way: &mut dyn FnMut(), runs: u32) -> f64 {
    let start = Instant::now();
    for _ in 0..runs {
        way();
    }
    start.elapsed().as_nanos() as f64
}
