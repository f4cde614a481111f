//! Times in nanoseconds, taken by turns.

use std::time::Instant;

pub fn nanoseconds(work: &mut dyn FnMut()) -> f64 {
    let start = Instant::now();
    work();
    start.elapsed().as_nanos() as f64
}

pub fn median(mut times: Vec<f64>) -> f64 {
    times.sort_by(|a, b| a.total_cmp(b));
    times[times.len() / 2]
}

/// One side of a comparison: sets up its inputs, runs its call, and says the nanoseconds of the call alone.
pub type Turn<'a> = Box<dyn FnMut() -> f64 + 'a>;

/// Runs all sides by turns, so that each meets the same machine: their medians.
pub fn by_turns(runs: usize, sides: &mut [Turn]) -> Vec<f64> {
    let mut times = vec![Vec::new(); sides.len()];
    for _ in 0..runs {
        for (side, list) in sides.iter_mut().zip(&mut times) {
            list.push(side());
        }
    }
    times.into_iter().map(median).collect()
}

/// A side that changes nothing it is given: many calls in one reading of the clock.
pub fn repeated<'a>(times: usize, mut call: impl FnMut() + 'a) -> Turn<'a> {
    Box::new(move || {
        let all = nanoseconds(&mut || (0..times).for_each(|_| call()));
        all / times as f64
    })
}

/// What reading the clock twice costs by itself; taken off where only one call lies between.
pub fn clock_cost() -> f64 {
    median((0..2001).map(|_| nanoseconds(&mut || ())).collect())
}
