//! Times: the same work by several sides that take turns, the best of many short
//! batches, so that what else the machine does is met by all or by none.

use std::time::Instant;

/// One side's work.
pub type Work<'a> = Box<dyn FnMut() + 'a>;

/// However slow the work is, each side has so many turns.
const TURNS: usize = 5;

/// Microseconds a call of each side, within about so many seconds in all.
pub fn alternating(sides: &mut [Work], seconds: f64) -> Vec<f64> {
    let batches: Vec<u32> = sides.iter_mut().map(|side| batch_size(side)).collect();
    let mut best = vec![f64::MAX; sides.len()];
    let (start, mut turns) = (Instant::now(), 0);
    while turns < TURNS || start.elapsed().as_secs_f64() < seconds {
        for ((best, side), &batch) in best.iter_mut().zip(sides.iter_mut()).zip(&batches) {
            *best = best.min(time(side, batch));
        }
        turns += 1;
    }
    best
}

/// So many calls that a batch takes about a millisecond.
fn batch_size(call: &mut dyn FnMut()) -> u32 {
    let first = time(call, 1);
    if first > 1000.0 {
        return 1;
    }
    let once = time(call, 16).max(0.01);
    (1000.0 / once).ceil() as u32
}

fn time(call: &mut dyn FnMut(), calls: u32) -> f64 {
    let start = Instant::now();
    for _ in 0..calls {
        call();
    }
    start.elapsed().as_secs_f64() * 1e6 / f64::from(calls)
}
