//! Times competitors alternately, so that whatever else the machine does falls on all of them alike.

use std::time::{Duration, Instant};

/// How long a competitor runs before the next one does. Short, so that many slices are free of interruptions.
const TIME_SLICE: Duration = Duration::from_micros(40);

/// The best time of one pass of each competitor, in nanoseconds, over so many rounds of one time slice each.
pub fn best<const C: usize>(rounds: usize, mut passes: [Box<dyn FnMut() + '_>; C]) -> [f64; C] {
    let repeats = passes.each_mut().map(|pass| repeats(pass));
    let mut best = [f64::MAX; C];
    for _ in 0..rounds {
        for ((pass, &repeats), best) in passes.iter_mut().zip(&repeats).zip(&mut best) {
            *best = best.min(pass_time(pass, repeats));
        }
    }
    best
}

/// How many passes fill a time slice.
fn repeats(pass: &mut dyn FnMut()) -> u32 {
    let least = (0..5).map(|_| pass_time(pass, 1)).fold(f64::MAX, f64::min);
    (TIME_SLICE.as_nanos() as f64 / least).ceil() as u32
}

/// The time of one pass, in nanoseconds: the mean of so many in a row.
fn pass_time(pass: &mut dyn FnMut(), repeats: u32) -> f64 {
    let start = Instant::now();
    for _ in 0..repeats {
        pass();
    }
    start.elapsed().as_nanos() as f64 / f64::from(repeats)
}
