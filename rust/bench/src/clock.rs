//! Time of a call: the median of several batches, the two sides in turn.

use crate::entry::{measured, Call, Entry};
use crate::inputs::Input;
use crate::sides::SIDES;
use std::time::{Duration, Instant};

const BATCHES: usize = 21;
const SHORTEST_BATCH: Duration = Duration::from_millis(4);

/// Nanoseconds in one run of `measured`, for each side.
pub fn nanoseconds(entry: Entry, input: &Input) -> [f64; 2] {
    let mut calls = SIDES.map(|side| Call::new(side, entry, input));
    let repeats = calls.each_mut().map(repeats);
    let mut times = [Vec::new(), Vec::new()];
    for _ in 0..BATCHES {
        for side in 0..2 {
            let time = batch(&mut calls[side], repeats[side]);
            times[side].push(time.as_nanos() as f64 / f64::from(repeats[side]));
        }
    }
    times.map(median)
}

/// How many repeats make a batch long enough for the clock.
fn repeats(call: &mut Call) -> u32 {
    let mut repeats = 1;
    while batch(call, repeats) < SHORTEST_BATCH {
        repeats *= 2;
    }
    repeats
}

fn batch(call: &mut Call, repeats: u32) -> Duration {
    let from = Instant::now();
    for _ in 0..repeats {
        measured(call);
    }
    from.elapsed()
}

fn median(mut times: Vec<f64>) -> f64 {
    times.sort_by(f64::total_cmp);
    times[times.len() / 2]
}
